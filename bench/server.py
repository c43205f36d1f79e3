"""What the scripts of this folder share: a store file with the sample, the program serving it, and a client.

Everything stays on 127.0.0.1. A server is a child process on a port that was free, and ends with its `with` block.
"""
import argparse
import contextlib
import json
import os
import random
import re
import signal
import socket
import sqlite3
import subprocess
import time
from pathlib import Path

ROOT = Path(__file__).resolve().parent.parent
PROGRAM = ROOT / "crates" / "pocket_main" / "out" / "pocket_main"
SAMPLE = ROOT / "examples" / "sample.sql"
ADMIN = "adminadminadmin1"
NOTES = "/api/collections/notes/records"
# A connection ends behind so many replies.
REQUESTS_OF_A_CONNECTION = 1000

LENGTH = re.compile(rb"\r\nContent-Length: (\d+)\r\n")


class Ended(Exception):
    """The server ended the connection before a whole reply had come."""


def parser_of(head):
    """A parser of a script's words, whose help is the head comment of the script."""
    parser = argparse.ArgumentParser(description=head, formatter_class=argparse.RawDescriptionHelpFormatter)
    parser.add_argument("--program", type=Path, default=PROGRAM, help="the built program (%(default)s)")
    return parser


def free_port():
    """A port of 127.0.0.1 that nobody listens on, below those that the system gives to clients."""
    while True:
        port = random.SystemRandom().randrange(20_000, 32_000)
        with contextlib.suppress(OSError), socket.socket() as probe:
            probe.bind(("127.0.0.1", port))
            return port


def note_row(number):
    """The kept row of a note with this number in its id and its text."""
    moment = "2024-01-01 00:00:00.000Z"
    value = {"created": moment, "text": f"note {number}", "updated": moment}
    return f"r/notes/kept{number:011}", json.dumps(value, separators=(",", ":"))


def make_store(path, notes=0):
    """Makes a store file of the sample and so many notes more."""
    with contextlib.closing(sqlite3.connect(path)) as store, store:
        store.executescript(SAMPLE.read_text("ascii"))
        store.executemany("INSERT INTO kept VALUES (?, ?)", map(note_row, range(notes)))


def remove_store(path):
    """Removes a store file, with the log that stands beside it."""
    for name in (path, f"{path}-wal", f"{path}-shm"):
        Path(name).unlink(missing_ok=True)


class Server:
    """The program as it serves a store file."""

    def __init__(self, program, store, *words, port=None, **popen):
        self.port = port or free_port()
        command = [program, "serve", "--admin", ADMIN, "--port", str(self.port), "--store", store, *words]
        self.child = subprocess.Popen(
            [str(word) for word in command], stdin=subprocess.DEVNULL, stdout=subprocess.PIPE, stderr=subprocess.PIPE, **popen
        )

    def __enter__(self):
        return self

    def __exit__(self, *_):
        self.stop(signal.SIGKILL)

    def connect(self, seconds=60):
        """A connection to the server. While it opens its store, the connection is tried again."""
        end = time.monotonic() + seconds
        while True:
            try:
                return Client(socket.create_connection(("127.0.0.1", self.port), seconds))
            except ConnectionRefusedError:
                if self.child.poll() is not None:
                    raise Ended(f"the program ended with status {self.child.returncode}: {self.child.stderr.read().decode()}")
                if time.monotonic() > end:
                    raise
                time.sleep(0.02)

    def seconds_of_processor(self):
        """The processor seconds that the server has used so far."""
        fields = Path(f"/proc/{self.child.pid}/stat").read_text().rsplit(")", 1)[1].split()
        return (int(fields[11]) + int(fields[12])) / os.sysconf("SC_CLK_TCK")

    def wait(self, seconds=60):
        """The exit status, the output and the errors of a server that ends by itself."""
        out, errors = self.child.communicate(timeout=seconds)
        return self.child.returncode, out.decode(), errors.decode()

    def stop(self, how):
        """Stops the server by this signal, where it still runs."""
        if self.child.poll() is None:
            self.child.send_signal(how)
        self.child.communicate()


class Client:
    """A connection, which is kept alive over many requests."""

    def __init__(self, link):
        link.setsockopt(socket.IPPROTO_TCP, socket.TCP_NODELAY, 1)
        self.link = link
        self.held = b""

    def __enter__(self):
        return self

    def __exit__(self, *_):
        self.link.close()

    def send(self, data):
        try:
            self.link.sendall(data)
        except ConnectionError as fault:
            raise Ended(str(fault))

    def more(self):
        """Reads what has come, and says whether anything has."""
        try:
            piece = self.link.recv(1 << 16)
        except ConnectionError as fault:
            raise Ended(str(fault))
        self.held += piece
        return piece != b""

    def reply(self):
        """The bytes of the next reply."""
        while b"\r\n\r\n" not in self.held:
            if not self.more():
                raise Ended(f"the connection ended; held {self.held[:200]!r}")
        head = self.held.index(b"\r\n\r\n") + 4
        length = LENGTH.search(self.held, 0, head)
        size = head + (int(length[1]) if length else 0)
        while len(self.held) < size:
            if not self.more():
                raise Ended(f"the connection ended; held {self.held[:200]!r}")
        reply, self.held = self.held[:size], self.held[size:]
        return reply

    def rest(self):
        """What comes until the server ends the connection, also by a reset where it hadn't read all."""
        with contextlib.suppress(Ended):
            while self.more():
                pass
        return self.held

    def ask(self, method, target, body=None, token=ADMIN):
        """Sends a request, and gives the status and the JSON of its reply."""
        self.send(request(method, target, body, token))
        reply = self.reply()
        body = reply[reply.index(b"\r\n\r\n") + 4:]
        return int(reply[9:12]), json.loads(body) if body else None


def request(method, target, body=None, token=ADMIN):
    """The bytes of a request; a body is sent as JSON."""
    data = b"" if body is None else json.dumps(body, separators=(",", ":")).encode()
    head = f"{method} {target} HTTP/1.1\r\nAuthorization: {token}\r\nContent-Length: {len(data)}\r\n\r\n"
    return head.encode() + data
