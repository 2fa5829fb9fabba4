-- What each way to write takes back.
\set SHOW_CONTEXT never
SET client_min_messages = warning;
CREATE FUNCTION quiet(kept regclass, VARIADIC keys bigint[]) RETURNS boolean LANGUAGE sql AS $$
    SELECT krl.quiet(krl.nonce(), relation, mark, array_agg((key % stripes)::integer))
    FROM krl.cached, unnest(keys) AS key WHERE relation = kept GROUP BY relation, mark
$$;
CREATE TABLE counted (spans bigint, skipped bigint);
INSERT INTO counted VALUES (0, 0);
-- How many spans the workers took back since the last call, and how many stripes nobody had kept.
CREATE FUNCTION since(OUT taken_back bigint, OUT skipped bigint) LANGUAGE sql AS $$
    WITH now AS (SELECT sum(spans) AS spans, krl.skipped() AS skipped FROM krl.workers),
        before AS (SELECT * FROM counted),
        counting AS (UPDATE counted SET (spans, skipped) = (SELECT now.spans, now.skipped FROM now))
    SELECT now.spans - before.spans, now.skipped - before.skipped FROM now, before
$$;
INSERT INTO item SELECT id, 0 FROM generate_series(0, 199) AS id;
SELECT FROM since();

-- Only what a reader may keep is taken back.
UPDATE item SET n = 1 WHERE id = 5;
SELECT * FROM since();
SELECT quiet('item', 5, 6);
UPDATE item SET n = 2 WHERE id = 5;
SELECT * FROM since();
UPDATE item SET n = 3 WHERE id IN (5, 6);
SELECT * FROM since();

-- Both keys of a row whose key changes; a key that has no row yet; a row that goes.
SELECT quiet('item', 7, 300, 301, 8);
UPDATE item SET id = 300 WHERE id = 7;
INSERT INTO item VALUES (301);
DELETE FROM item WHERE id = 8;
SELECT * FROM since();

-- Statements that write in other ways.
SELECT quiet('item', 9, 10, 11, 12);
INSERT INTO item VALUES (9, 0) ON CONFLICT (id) DO UPDATE SET n = item.n + 1;
WITH gone AS (DELETE FROM item WHERE id = 10 RETURNING id) UPDATE item SET n = 7 WHERE id = 11;
DO $$
BEGIN
    UPDATE item SET n = 8 WHERE id = 12;
END $$;
SELECT * FROM since();
SELECT quiet('item', 302, 303);
COPY item (id) FROM stdin;
302
303
\.
SELECT * FROM since();
CREATE TABLE parent (id bigint PRIMARY KEY);
INSERT INTO parent VALUES (1);
ALTER TABLE item ADD COLUMN parent bigint REFERENCES parent ON DELETE CASCADE;
UPDATE item SET parent = 1 WHERE id = 13;
SELECT FROM since();
SELECT quiet('item', 13);
DELETE FROM parent;
SELECT * FROM since();
SET session_replication_role = replica;
SELECT quiet('item', 14);
UPDATE item SET n = 9 WHERE id = 14;
RESET session_replication_role;
SELECT * FROM since();

-- A subtransaction that was rolled back takes rows back in vain, and a transaction does not.
SELECT quiet('item', 15, 16);
BEGIN;
SAVEPOINT s;
UPDATE item SET n = 10 WHERE id = 15;
ROLLBACK TO s;
COMMIT;
BEGIN;
UPDATE item SET n = 10 WHERE id = 16;
ROLLBACK;
SELECT * FROM since();

-- Beyond krl.recall_limit everything is taken back, by the mark.
SET krl.recall_limit = 10;
SELECT quiet('item', 17);
UPDATE item SET n = n + 1 WHERE id BETWEEN 17 AND 60;
SELECT * FROM since();
RESET krl.recall_limit;
SELECT quiet('item', 18);
TRUNCATE item CASCADE;
SELECT * FROM since();

-- A prepared transaction gives notice until it ends.
SELECT quiet('item', 19);
BEGIN;
INSERT INTO item VALUES (19);
PREPARE TRANSACTION 'one';
SELECT * FROM since();
SELECT quiet('item', 19), quiet('item', 20);
COMMIT PREPARED 'one';
SELECT quiet('item', 19);
BEGIN;
INSERT INTO item VALUES (20);
PREPARE TRANSACTION 'two';
SELECT quiet('item', 20);
ROLLBACK PREPARED 'two';
SELECT quiet('item', 20);

-- So does one that has changed all rows of a table, for them only.
SET krl.recall_limit = 10;
BEGIN;
INSERT INTO item SELECT generate_series(100, 140);
PREPARE TRANSACTION 'three';
SELECT quiet('item', 21), quiet('part', 1);
COMMIT PREPARED 'three';
RESET krl.recall_limit;
SELECT quiet('item', 21);

-- A deferred trigger, a block that catches an error, and a serializable transaction.
CREATE FUNCTION touch() RETURNS trigger LANGUAGE plpgsql AS $$
BEGIN
    UPDATE item SET n = n + 1 WHERE id = 19;
    RETURN NULL;
END $$;
CREATE CONSTRAINT TRIGGER touch AFTER INSERT ON parent DEFERRABLE INITIALLY DEFERRED
    FOR EACH ROW EXECUTE FUNCTION touch();
SELECT FROM since();
SELECT quiet('item', 19);
INSERT INTO parent VALUES (2);
SELECT * FROM since();
SELECT quiet('item', 19);
DO $$
BEGIN
    UPDATE item SET n = 5 WHERE id = 19;
    BEGIN
        UPDATE item SET n = 6 WHERE id = 19;
        RAISE division_by_zero;
    EXCEPTION WHEN division_by_zero THEN
    END;
END $$;
SELECT * FROM since();
SELECT quiet('item', 19);
BEGIN ISOLATION LEVEL SERIALIZABLE;
UPDATE item SET n = n + 1 WHERE id = 19;
COMMIT;
SELECT * FROM since();
SELECT id, n FROM item WHERE id = 19;

-- A snapshot that may be older than the look at the notices, and changes of the reader's own transaction.
BEGIN ISOLATION LEVEL REPEATABLE READ;
SELECT quiet('item', 21);
COMMIT;
BEGIN;
SELECT quiet('item', 21);
INSERT INTO item VALUES (21);
SELECT quiet('item', 22);
ROLLBACK;

-- A row whose key is not an integer, and one of a partition.
INSERT INTO place VALUES ('at', 'a0eebc99-9c0b-4ef8-bb6d-6bb9bd380a11', 'Wien');
SELECT FROM since();
SELECT krl.quiet(krl.nonce(), relation, mark,
    ARRAY[krl.stripe(stripes, 'at', 'a0eebc99-9c0b-4ef8-bb6d-6bb9bd380a11')])
    FROM krl.cached WHERE relation = 'place'::regclass;
UPDATE place SET name = 'Vienna';
SELECT * FROM since();
SELECT quiet('part', 3);
INSERT INTO part0 VALUES (3, 0);
SELECT * FROM since();
