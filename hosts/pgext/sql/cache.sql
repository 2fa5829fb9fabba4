-- Which tables can be cached, and what they have then.
\set SHOW_CONTEXT never
SET client_min_messages = warning;
CREATE EXTENSION krl;
-- Waits until each worker has joined krl's server, and the mark has their nonce.
CREATE FUNCTION await_workers() RETURNS void LANGUAGE plpgsql AS $$
BEGIN
    WHILE krl.nonce() = 0 OR EXISTS (SELECT FROM krl.workers WHERE NOT is_ready) LOOP
        IF clock_timestamp() > now() + interval '10 minutes' THEN
            RAISE EXCEPTION 'the workers are not ready';
        END IF;
        PERFORM pg_sleep(0.02);
    END LOOP;
END $$;
-- Waits until no worker is ready, the first one for this reason.
CREATE FUNCTION await_fault(why text) RETURNS void LANGUAGE plpgsql AS $$
BEGIN
    WHILE EXISTS (SELECT FROM krl.workers WHERE is_ready OR number = 0 AND fault IS DISTINCT FROM why) LOOP
        IF clock_timestamp() > now() + interval '10 minutes' THEN
            RAISE EXCEPTION 'the workers are ready, or not for this reason: %',
                (SELECT string_agg(fault, ', ') FROM krl.workers);
        END IF;
        PERFORM pg_sleep(0.02);
    END LOOP;
END $$;
SELECT await_workers();
SELECT number, is_ready, fault FROM krl.workers;

CREATE TABLE item (id bigint PRIMARY KEY, n bigint NOT NULL DEFAULT 0);
SELECT krl.cache('item', stripes => 64);
-- A second call changes nothing, and may not name other columns.
SELECT krl.cache('item');
SELECT krl.cache('item', '{n}');
CREATE TABLE place (country text, code uuid, name text, PRIMARY KEY (country, code));
SELECT krl.cache('place', stripes => 16);
CREATE TABLE note (author text, body text);
SELECT krl.cache('note', '{author}', 16);
SELECT krl.cache('note');
SELECT relation, key_columns, mark, stripes, by_remainder FROM krl.cached ORDER BY mark;
SELECT tgrelid::regclass AS relation, tgname, tgenabled, tgtype FROM pg_trigger
    WHERE tgname LIKE 'krl%' ORDER BY 1, 2;

-- Stripes of keys that are no integers.
-- hosts/cache/src/key.rs has the same keys and stripes.
SELECT krl.stripe(4096, 'lamp'), krl.stripe(4096, E'Gl\u00FChlampe');
SELECT key, krl.stripe(1048574, VARIADIC key) FROM (VALUES ('{""}'::text[]), ('{a}'), ('{a,b}'), ('{ab,""}'),
    ('{"",ab}'), ('{a0eebc99-9c0b-4ef8-bb6d-6bb9bd380a11}'), ('{at,a0eebc99-9c0b-4ef8-bb6d-6bb9bd380a11}'),
    ('{-7,lamp}'), ('{-9223372036854775808,x,y}')) AS keys (key);
SELECT krl.stripe(16, 'a', NULL);
SELECT krl.stripe(0, 'a');
SELECT krl.stripe(16);

-- What cannot be cached.
CREATE TABLE keyless (id bigint);
SELECT krl.cache('keyless');
SELECT krl.cache('keyless', '{identity}');
SELECT krl.cache('keyless', '{}');
CREATE TABLE inexact (id double precision PRIMARY KEY);
SELECT krl.cache('inexact');
CREATE TABLE dated (id timestamptz PRIMARY KEY);
SELECT krl.cache('dated');
CREATE COLLATION caseless (provider = icu, locale = 'und-u-ks-level2', deterministic = false);
CREATE TABLE collated (id text COLLATE caseless PRIMARY KEY);
SELECT krl.cache('collated');
CREATE TEMP TABLE temporary (id bigint PRIMARY KEY);
SELECT krl.cache('temporary');
CREATE UNLOGGED TABLE unlogged (id bigint PRIMARY KEY);
SELECT krl.cache('unlogged');
CREATE VIEW looked_at AS SELECT * FROM item;
SELECT krl.cache('looked_at', '{id}');
DROP VIEW looked_at;
CREATE MATERIALIZED VIEW copied AS SELECT * FROM item;
SELECT krl.cache('copied', '{id}');
DROP MATERIALIZED VIEW copied;
CREATE TABLE guarded (id bigint PRIMARY KEY);
ALTER TABLE guarded ENABLE ROW LEVEL SECURITY;
SELECT krl.cache('guarded');
SELECT krl.cache('keyless', '{id}', 0);
SELECT krl.cache('keyless', '{id}', 2000);
SELECT krl.uncache('keyless');

-- Columns that an index only includes are not of the key.
CREATE TABLE covered (id bigint, n bigint, PRIMARY KEY (id) INCLUDE (n));
SELECT krl.primary_key('covered');

-- Partitions.
CREATE TABLE part (id bigint PRIMARY KEY, n bigint) PARTITION BY RANGE (id);
CREATE TABLE part0 PARTITION OF part FOR VALUES FROM (0) TO (10);
SELECT krl.cache('part0');
SELECT krl.cache('part', stripes => 16);
SELECT tgrelid::regclass AS relation, tgname, tgenabled FROM pg_trigger
    WHERE tgname LIKE 'krl%' AND tgrelid::regclass::text LIKE 'part%' ORDER BY 1, 2;

-- The keys of a table that is no longer cached are those of the next one for which they suffice.
SELECT krl.uncache('note');
SELECT tgname FROM pg_trigger WHERE tgrelid = 'note'::regclass;
SELECT krl.cache('note', '{author}', 17);
CREATE TABLE restored (id bigint PRIMARY KEY);
SELECT krl.cache('restored', stripes => 7);
SELECT krl.cache('covered', stripes => 8);
SELECT relation, mark, stripes FROM krl.cached ORDER BY mark;
\set VERBOSITY terse
INSERT INTO krl.cached VALUES ('keyless', '{id}', 132, 3, true);
\set VERBOSITY default

-- A trigger of other stripes, as a table has that was restored without krl.cached, is replaced.
SELECT krl.uncache('restored');
CREATE TRIGGER krl_changed AFTER INSERT OR UPDATE OR DELETE ON restored
    FOR EACH ROW EXECUTE FUNCTION krl.changed('82', '8', 'remainder', 'id');
SELECT krl.cache('restored', stripes => 7);
SELECT krl.cache('restored');
SELECT tgname, tgenabled, encode(tgargs, 'escape') FROM pg_trigger WHERE tgrelid = 'restored'::regclass ORDER BY 1;
SELECT krl.uncache('restored');
SELECT krl.uncache('covered');
DROP TABLE restored;

-- The triggers of cached tables need the extension.
\set VERBOSITY terse
DROP EXTENSION krl;
