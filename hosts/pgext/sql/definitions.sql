-- What changes the definition of a cached table takes all its rows back, if a reader may keep one.
\set SHOW_CONTEXT never
SET client_min_messages = warning;
TRUNCATE item CASCADE;
SELECT FROM since();
ALTER TABLE item ADD COLUMN weight bigint;
SELECT * FROM since();

-- As long as a trigger does not fire always, readers keep nothing.
SELECT quiet('item', 1);
ALTER TABLE item DISABLE TRIGGER ALL;
SELECT * FROM since();
SELECT quiet('item', 1);
ALTER TABLE item ENABLE TRIGGER ALL;
SELECT quiet('item', 1);
ALTER TABLE item ENABLE ALWAYS TRIGGER krl_changed;
SELECT quiet('item', 1);
SELECT krl.cache('item');
SELECT quiet('item', 1);
ALTER TABLE part DISABLE TRIGGER ALL;
ALTER TABLE part ENABLE TRIGGER ALL;
SELECT quiet('part', 1);
SELECT krl.cache('part');
SELECT quiet('part', 1);
TRUNCATE part;
SELECT FROM since();

ALTER TABLE item ADD COLUMN color text DEFAULT 'red';
SELECT * FROM since();
SELECT quiet('item', 1);
ALTER TABLE item ALTER COLUMN n TYPE numeric USING n + 1;
SELECT * FROM since();
SELECT quiet('item', 1);
ALTER TABLE item RENAME TO thing;
SELECT * FROM since();
ALTER TABLE thing RENAME TO item;
SELECT quiet('item', 1);
SELECT FROM since();
CREATE RULE nothing AS ON UPDATE TO item DO ALSO NOTHING;
SELECT * FROM since();
SELECT quiet('item', 1);
CLUSTER item USING item_pkey;
SELECT * FROM since();

-- Row-level security.
SELECT quiet('item', 1);
ALTER TABLE item ENABLE ROW LEVEL SECURITY;
SELECT * FROM since();
SELECT quiet('item', 1);
ALTER TABLE item DISABLE ROW LEVEL SECURITY;
SELECT quiet('item', 1);
SELECT FROM since();

-- A schema that is renamed: its tables have other names, which may be those of others next.
CREATE SCHEMA shop;
CREATE TABLE shop.lamp (id bigint PRIMARY KEY);
SELECT krl.cache('shop.lamp', stripes => 16);
SELECT quiet('shop.lamp', 1);
SELECT FROM since();
CREATE SCHEMA other;
SELECT * FROM since();
ALTER SCHEMA shop RENAME TO store;
SELECT * FROM since();

-- Types: columns of any table may be of one, or of an array or a domain of it.
CREATE TYPE color AS ENUM ('red', 'green');
CREATE TYPE size AS (width integer);
ALTER TABLE store.lamp ADD COLUMN color color, ADD COLUMN size size;
SELECT quiet('store.lamp', 1);
SELECT FROM since();
ALTER TYPE color ADD VALUE 'blue';
SELECT * FROM since();
ALTER TYPE color RENAME VALUE 'green' TO 'olive';
SELECT * FROM since();
SELECT quiet('store.lamp', 1);
ALTER TYPE size ADD ATTRIBUTE height integer;
SELECT * FROM since();

-- A table that is dropped is no longer cached.
SELECT quiet('store.lamp', 1);
DROP SCHEMA store CASCADE;
SELECT * FROM since();
SELECT * FROM krl.cached WHERE relation NOT IN (SELECT oid FROM pg_class);

-- The table of a bulk change, and no other one, is taken back by its mark.
SELECT quiet('item', 1), quiet('part', 1);
TRUNCATE item;
SELECT * FROM since();
UPDATE part SET n = 1 WHERE id = 1;
INSERT INTO part VALUES (1, 1);
SELECT * FROM since();

-- A key that is no longer an integer is refused until the table is cached again.
ALTER TABLE item ALTER COLUMN id TYPE text;
INSERT INTO item (id, n) VALUES ('a', 1);
SELECT krl.uncache('item');
SELECT krl.cache('item', stripes => 64);
INSERT INTO item (id, n) VALUES ('a', 1);
SELECT FROM since();

-- An unlogged table, which a crash empties.
CREATE TABLE lasting (id bigint PRIMARY KEY);
SELECT krl.cache('lasting', stripes => 16);
SELECT quiet('lasting', 1);
SELECT FROM since();
ALTER TABLE lasting SET UNLOGGED;
SELECT * FROM since();
SELECT quiet('lasting', 1);
ALTER TABLE lasting SET LOGGED;
SELECT quiet('lasting', 1);
DROP TABLE lasting;
SELECT quiet('part', 1);
SELECT FROM since();
ALTER TABLE part0 SET UNLOGGED;
SELECT * FROM since();
SELECT quiet('part', 1);
ALTER TABLE part0 SET LOGGED;
SELECT quiet('part', 1);
CREATE UNLOGGED TABLE part2 (id bigint PRIMARY KEY, n bigint);
ALTER TABLE part ATTACH PARTITION part2 FOR VALUES FROM (20) TO (30);
SELECT krl.cache('part');
SELECT quiet('part', 1);
DROP TABLE part2;
SELECT quiet('part', 1);
SELECT FROM since();

-- Other tables are left alone.
SELECT quiet('part', 1);
CREATE TABLE other (id bigint PRIMARY KEY REFERENCES parent);
ALTER TABLE other ADD COLUMN n bigint;
DROP TABLE other;
SELECT * FROM since();
SELECT krl.quiet(krl.nonce(), relation, mark, '{0}') FROM krl.cached WHERE relation = 'note'::regclass;
DROP TABLE note;
SELECT * FROM since();
