-- The sample's records as a store file: six collections, their records, and the tokens of Ann and Bob, as docs/API.md
-- tells of them under 'The sample'. `pocket pipe --sample` has the same rows in memory.
--
--     sqlite3 kept.db < examples/sample.sql
--
-- A value stands on one line in the store; `||` joins the pieces into which long ones are cut here.

BEGIN;

CREATE TABLE kept (k TEXT PRIMARY KEY NOT NULL, v TEXT NOT NULL) STRICT;

-- The collections, with their fields and rules.
INSERT INTO kept VALUES ('c/drafts',
    '{"createRule":null,"deleteRule":null,"fields":['
    || '{"hidden":false,"max":5000,"min":0,"name":"text","required":false,"type":"text","unique":false}],"listRule":null,'
    || '"name":"drafts","type":"base","updateRule":null,"viewRule":null}');
INSERT INTO kept VALUES ('c/logs',
    '{"createRule":null,"deleteRule":null,"fields":['
    || '{"hidden":false,"max":5000,"min":0,"name":"line","required":false,"type":"text","unique":false}],"listRule":null,'
    || '"name":"logs","type":"base","updateRule":null,"viewRule":null}');
INSERT INTO kept VALUES ('c/notes',
    '{"createRule":"","deleteRule":"","fields":['
    || '{"hidden":false,"max":5000,"min":0,"name":"text","required":false,"type":"text","unique":false}],"listRule":"",'
    || '"name":"notes","type":"base","updateRule":"","viewRule":""}');
INSERT INTO kept VALUES ('c/projects',
    '{"createRule":null,"deleteRule":null,"fields":['
    || '{"hidden":false,"max":5000,"min":0,"name":"title","required":true,"type":"text","unique":false},'
    || '{"cascadeDelete":false,"collection":"users","hidden":false,"maxSelect":1,"name":"owner","required":false,"type":"relation","unique":false},'
    || '{"cascadeDelete":false,"collection":"users","hidden":false,"maxSelect":50,"name":"members","required":false,"type":"relation"}],'
    || '"listRule":"@request.auth.id != \"\" && members.id ?= @request.auth.id","name":"projects","type":"base",'
    || '"updateRule":"@request.auth.id != \"\" && owner = @request.auth.id && @request.body.members:isset = false",'
    || '"viewRule":"@request.auth.id != \"\" && members.id ?= @request.auth.id"}');
INSERT INTO kept VALUES ('c/tasks',
    '{"createRule":"@request.auth.id != \"\" && project.members.id ?= @request.auth.id","deleteRule":null,"fields":['
    || '{"hidden":false,"max":5000,"min":0,"name":"title","required":true,"type":"text","unique":false},'
    || '{"cascadeDelete":true,"collection":"projects","hidden":false,"maxSelect":1,"name":"project","required":true,"type":"relation","unique":false},'
    || '{"cascadeDelete":false,"collection":"users","hidden":false,"maxSelect":1,"name":"assignee","required":false,"type":"relation","unique":false},'
    || '{"hidden":false,"maxSelect":3,"name":"tags","required":false,"type":"select","values":["bug","docs","urgent"]},'
    || '{"hidden":false,"max":null,"min":null,"name":"count","required":false,"type":"number","unique":false},'
    || '{"hidden":false,"max":"","min":"","name":"due","required":false,"type":"date","unique":false}],'
    || '"listRule":"@request.auth.id != \"\" && project.members.id ?= @request.auth.id","name":"tasks","type":"base",'
    || '"updateRule":"@request.auth.id != \"\" && project.members.id ?= @request.auth.id && @request.body.project:isset = false",'
    || '"viewRule":"@request.auth.id != \"\" && project.members.id ?= @request.auth.id"}');
INSERT INTO kept VALUES ('c/users',
    '{"createRule":null,"deleteRule":null,"fields":['
    || '{"hidden":false,"max":5000,"min":0,"name":"name","required":true,"type":"text","unique":false},'
    || '{"hidden":false,"max":5000,"min":0,"name":"team","required":false,"type":"text","unique":false},'
    || '{"hidden":true,"max":null,"min":null,"name":"salary","required":false,"type":"number","unique":false}],'
    || '"listRule":"@request.auth.id != \"\" && (team = @request.auth.team || id = @request.auth.id)","name":"users",'
    || '"type":"auth","updateRule":null,'
    || '"viewRule":"@request.auth.id != \"\" && (team = @request.auth.team || id = @request.auth.id)"}');

-- The records.
INSERT INTO kept VALUES ('r/logs/log000000000001',
    '{"created":"2024-01-01 00:00:00.000Z","line":"boot","updated":"2024-01-01 00:00:00.000Z"}');
INSERT INTO kept VALUES ('r/notes/note00000000001',
    '{"created":"2024-01-01 00:00:00.000Z","text":"hello","updated":"2024-01-01 00:00:00.000Z"}');
INSERT INTO kept VALUES ('r/projects/proj00000000one',
    '{"created":"2024-01-01 00:00:00.000Z","members":["user00000000ann","user00000000bob"],"owner":"user00000000ann",'
    || '"title":"Site","updated":"2024-01-01 00:00:00.000Z"}');
INSERT INTO kept VALUES ('r/projects/proj00000000two',
    '{"created":"2024-01-01 00:00:00.000Z","members":["user00000000ann","user00000000cyd"],"owner":"user00000000cyd",'
    || '"title":"Shop","updated":"2024-01-01 00:00:00.000Z"}');
INSERT INTO kept VALUES ('r/tasks/task00000000001',
    '{"assignee":"user00000000bob","count":3,"created":"2024-01-01 00:00:00.000Z","due":"2024-05-03 00:00:00.000Z",'
    || '"project":"proj00000000one","tags":["bug","urgent"],"title":"Fix login","updated":"2024-01-01 00:00:00.000Z"}');
INSERT INTO kept VALUES ('r/tasks/task00000000002',
    '{"assignee":"user00000000cyd","count":0,"created":"2024-01-01 00:00:00.000Z","due":"","project":"proj00000000one",'
    || '"tags":["docs"],"title":"Write guide","updated":"2024-01-01 00:00:00.000Z"}');
INSERT INTO kept VALUES ('r/tasks/task00000000003',
    '{"assignee":"user00000000cyd","count":9007199254740991,"created":"2024-01-01 00:00:00.000Z","due":"",'
    || '"project":"proj00000000two","tags":[],"title":"Open shop","updated":"2024-01-01 00:00:00.000Z"}');
INSERT INTO kept VALUES ('r/users/user00000000ann',
    '{"created":"2024-01-01 00:00:00.000Z","name":"Ann","salary":100,"team":"red","updated":"2024-01-01 00:00:00.000Z"}');
INSERT INTO kept VALUES ('r/users/user00000000bob',
    '{"created":"2024-01-01 00:00:00.000Z","name":"Bob","salary":90,"team":"red","updated":"2024-01-01 00:00:00.000Z"}');
INSERT INTO kept VALUES ('r/users/user00000000cyd',
    '{"created":"2024-01-01 00:00:00.000Z","name":"Cyd","salary":80,"team":"blue","updated":"2024-01-01 00:00:00.000Z"}');

-- The tokens of Ann and Bob.
INSERT INTO kept VALUES ('t/aaaaaaaaaaaaaaaaaaaaaaaaaaaaaaaa',
    '{"collection":"users","id":"user00000000ann","until":"9999-12-31 23:59:59.999Z"}');
INSERT INTO kept VALUES ('t/bbbbbbbbbbbbbbbbbbbbbbbbbbbbbbbb',
    '{"collection":"users","id":"user00000000bob","until":"9999-12-31 23:59:59.999Z"}');

COMMIT;
