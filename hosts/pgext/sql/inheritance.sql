-- Changes of the definition of tables that have partitions, or that inherit.
\set SHOW_CONTEXT never
SET client_min_messages = warning;
-- Partitions: a new one has no trigger of TRUNCATE before the next krl.cache.
CREATE TABLE part1 (id bigint PRIMARY KEY, n bigint);
INSERT INTO part1 VALUES (15, 0);
SELECT quiet('part', 15);
ALTER TABLE part ATTACH PARTITION part1 FOR VALUES FROM (10) TO (20);
SELECT * FROM since();
SELECT quiet('part', 15);
SELECT krl.cache('part');
INSERT INTO part VALUES (5, 0);
SELECT quiet('part', 5, 12);
SELECT FROM since();
-- The row moves to the other partition.
UPDATE part SET id = 12 WHERE id = 5;
SELECT * FROM since();
SELECT quiet('part', 15);
TRUNCATE part1;
SELECT * FROM since();
SELECT quiet('part', 15);
ALTER TABLE part DETACH PARTITION part1 CONCURRENTLY;
ALTER TABLE part DETACH PARTITION part1;
SELECT * FROM since();
SELECT quiet('part', 15);

-- A partition that was detached may be cached by itself, and is left by krl.uncache of its table.
SELECT krl.cache('part1', stripes => 16);
SELECT relation, tgname FROM krl.cached, krl.triggers(mark) WHERE relation = 'part1'::regclass ORDER BY tgname;
SELECT krl.uncache('part1');
CREATE TABLE whole (id bigint PRIMARY KEY) PARTITION BY RANGE (id);
CREATE TABLE half PARTITION OF whole FOR VALUES FROM (0) TO (10);
SELECT krl.cache('whole', stripes => 16);
ALTER TABLE whole DETACH PARTITION half;
SELECT krl.uncache('whole');
SELECT tgname FROM pg_trigger WHERE tgrelid IN ('whole'::regclass, 'half'::regclass, 'part1'::regclass);
DROP TABLE whole, half;

-- One that becomes that of another cached table has the trigger of TRUNCATE of the first until krl.cache is called.
CREATE TABLE early (id bigint PRIMARY KEY) PARTITION BY RANGE (id);
CREATE TABLE late (id bigint PRIMARY KEY) PARTITION BY RANGE (id);
CREATE TABLE moved PARTITION OF early FOR VALUES FROM (0) TO (10);
SELECT krl.cache('early', stripes => 16);
SELECT krl.cache('late', stripes => 16);
ALTER TABLE early DETACH PARTITION moved;
ALTER TABLE late ATTACH PARTITION moved FOR VALUES FROM (0) TO (10);
SELECT quiet('late', 1);
SELECT krl.cache('late');
SELECT quiet('late', 1);
DROP TABLE early, late;
SELECT FROM since();

-- Tables that inherit.
SELECT quiet('item', 1);
CREATE TABLE child () INHERITS (item);
SELECT * FROM since();
SELECT quiet('item', 1);
ALTER TABLE child NO INHERIT item;
SELECT quiet('item', 1);
SELECT FROM since();

-- A table that is cached and inherits gets a column with the other one.
CREATE TABLE elder (id bigint PRIMARY KEY);
CREATE TABLE younger (PRIMARY KEY (id)) INHERITS (elder);
SELECT krl.cache('younger', stripes => 16);
SELECT quiet('younger', 1);
SELECT FROM since();
ALTER TABLE elder ADD COLUMN n bigint;
SELECT * FROM since();

-- The columns of the key are neither renamed nor dropped, wherever a command begins; others are.
ALTER TABLE younger RENAME COLUMN id TO number;
ALTER TABLE elder RENAME COLUMN id TO number;
ALTER TABLE younger DROP COLUMN id;
ALTER TABLE elder DROP COLUMN id;
ALTER TABLE elder RENAME COLUMN n TO m;
ALTER TABLE elder DROP COLUMN m;
CREATE DOMAIN code AS text;
CREATE TABLE coded (code code, other text);
SELECT krl.cache('coded', '{other}', 16);
DROP DOMAIN code CASCADE;
DROP TABLE younger, elder, coded;
SELECT FROM since();
