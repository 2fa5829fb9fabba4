-- What others may put before the names of the catalog changes nothing: a database in which a schema has each of its
-- functions, operators and types, and in which each of its tables is a temporary one too.
\set SHOW_CONTEXT never
SET client_min_messages = warning;
SELECT current_database() AS this \gset
CREATE DATABASE hostile;
\c hostile
SET client_min_messages = warning;
CREATE SCHEMA trap;
DO $$
DECLARE
    it record;
BEGIN
    FOR it IN SELECT proname, oidvectortypes(proargtypes) AS types FROM pg_proc
        WHERE pronamespace = 'pg_catalog'::regnamespace AND prokind = 'f' AND NOT EXISTS (
            SELECT FROM pg_type WHERE pg_type.oid = ANY (proargtypes::oid[]) AND typtype = 'p')
        UNION SELECT name, types FROM (VALUES ('unnest'), ('cardinality'), ('array_cat')) AS names (name),
            (VALUES ('smallint[]'), ('integer[]'), ('text[]'), ('name[]')) AS arrays (types)
        UNION SELECT 'format', 'text, ' || types FROM (VALUES ('text'), ('name'), ('regclass'), ('regclass, text'),
            ('regclass, name'), ('name, regclass')) AS words (types)
    LOOP
        EXECUTE format('CREATE OR REPLACE FUNCTION trap.%I(%s) RETURNS boolean LANGUAGE plpgsql AS %L', it.proname,
            it.types, 'BEGIN RAISE ''a function of another schema''; END');
    END LOOP;
    FOR it IN SELECT oprname, format_type(oprleft, NULL) AS low, format_type(oprright, NULL) AS high FROM pg_operator
        JOIN pg_type AS a ON a.oid = oprleft JOIN pg_type AS b ON b.oid = oprright
        WHERE a.typtype <> 'p' AND b.typtype <> 'p'
    LOOP
        EXECUTE format('CREATE OR REPLACE FUNCTION trap.operator(%s, %s) RETURNS boolean LANGUAGE plpgsql AS %L',
            it.low, it.high, 'BEGIN RAISE ''an operator of another schema''; END');
        EXECUTE format('CREATE OPERATOR trap.%s (FUNCTION = trap.operator, LEFTARG = %s, RIGHTARG = %s)', it.oprname,
            it.low, it.high);
    END LOOP;
    FOR it IN SELECT typname FROM pg_type WHERE typnamespace = 'pg_catalog'::regnamespace AND typtype = 'b' LOOP
        EXECUTE format('CREATE DOMAIN trap.%I AS pg_catalog.int4 CHECK (false)', it.typname);
    END LOOP;
    FOR it IN SELECT relname FROM pg_class
        WHERE relnamespace = 'pg_catalog'::regnamespace AND relkind IN ('r', 'v')
    LOOP
        EXECUTE format('CREATE TEMP TABLE %I ()', it.relname);
    END LOOP;
END $$;
SET search_path = pg_temp, trap, pg_catalog;
SELECT FROM pg_class;
SELECT 1 = 1;
CREATE ROLE intruder;
CREATE SCHEMA krl AUTHORIZATION intruder;
CREATE EXTENSION krl;
DROP SCHEMA krl;
DROP ROLE intruder;
CREATE EXTENSION krl;
CREATE TABLE public.item (id pg_catalog.int8 PRIMARY KEY, n pg_catalog.int8);
SELECT krl.cache('public.item', stripes => 16);
CREATE TABLE public.place (country pg_catalog.text, code pg_catalog.uuid, PRIMARY KEY (country, code));
SELECT krl.cache('public.place', stripes => 16);
CREATE TABLE public.part (id pg_catalog.int8 PRIMARY KEY) PARTITION BY RANGE (id);
CREATE TABLE public.part0 PARTITION OF public.part FOR VALUES FROM (0) TO (10);
SELECT krl.cache('public.part', stripes => 16);
SELECT krl.cache(relation) FROM krl.cached;
SELECT relation, key_columns, mark, stripes, by_remainder FROM krl.cached;
INSERT INTO public.item VALUES (1, 1);
UPDATE public.item SET n = 2;
TRUNCATE public.item;
SELECT krl.quiet(krl.nonce(), relation, mark, '{1}') FROM krl.cached;
SELECT krl.stripe(4096, 'lamp'), krl.servers() IS NULL, krl.skipped() IS NULL;
SELECT number, is_ready FROM krl.workers;
SELECT relation FROM krl.waiting;
SELECT krl.uncache('public.place');
DROP TABLE public.item;
SELECT relation, mark FROM krl.cached;
RESET search_path;

-- Functions that find names by the path of their caller, and those that anybody may call.
SELECT proname FROM pg_catalog.pg_proc JOIN pg_catalog.pg_language ON prolang = pg_language.oid
    WHERE pronamespace = 'krl'::regnamespace AND lanname <> 'c'
    AND proconfig IS DISTINCT FROM '{"search_path=pg_catalog, pg_temp"}';
SELECT proname FROM pg_catalog.pg_proc
    WHERE pronamespace = 'krl'::regnamespace AND has_function_privilege('public', oid, 'EXECUTE') ORDER BY 1;
\c :this
DROP DATABASE hostile;
