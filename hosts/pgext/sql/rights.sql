-- Who may do what.
\set SHOW_CONTEXT never
SET client_min_messages = warning;
CREATE ROLE reader;
SET ROLE reader;
SELECT relation, stripes FROM krl.cached WHERE relation = 'part'::regclass;
SELECT krl.servers() LIKE 'unix:%' AS has_servers;
SELECT krl.quiet(1, 'part', 0, '{0}');
SELECT krl.quiet(1, 'part', 0, '{1000000}');
SELECT krl.cache('part');
SELECT krl.uncache('part');
SELECT krl.make(0, 1);
SELECT krl.suspend(true);
SELECT krl.resume();
SELECT krl.nonce();
SELECT * FROM krl.workers;
SELECT * FROM krl.readers;
SELECT krl.clients();
CREATE TEMP TABLE own (id bigint);
CREATE TRIGGER krl_changed AFTER INSERT ON own FOR EACH ROW EXECUTE FUNCTION krl.changed('0', '1', 'hash', 'id');
RESET ROLE;
GRANT pg_monitor TO reader;
SET ROLE reader;
SELECT number, is_ready FROM krl.workers;
SELECT relation FROM krl.waiting;
-- krl's server shows no status here.
SELECT * FROM krl.readers;
RESET ROLE;
REVOKE pg_monitor FROM reader;

-- SELECT on the table is the right to keep its rows.
GRANT SELECT ON part TO reader;
SELECT krl.nonce() AS nonce, mark FROM krl.cached WHERE relation = 'part'::regclass \gset
SET ROLE reader;
SELECT krl.quiet(:nonce, 'part', :mark, '{0}');
-- Another start of the database, and other stripes.
SELECT krl.quiet(:nonce + 1, 'part', :mark, '{0}');
SELECT krl.quiet(0, 'part', :mark, '{0}');
SELECT krl.quiet(:nonce, 'part', :mark + 1, '{0}');
SELECT krl.quiet(:nonce, 'part', :mark, '{0,NULL}');
SELECT krl.quiet(:nonce, 'part', -1, '{0}');
RESET ROLE;

-- Who loses the right keeps nothing any longer.
SELECT quiet('part', 0);
SELECT FROM since();
GRANT SELECT ON part TO PUBLIC;
SELECT * FROM since();
REVOKE SELECT ON part FROM PUBLIC, reader;
SELECT * FROM since();
SELECT quiet('part', 0);
REVOKE SELECT ON ALL TABLES IN SCHEMA public FROM reader;
SELECT * FROM since();
SELECT quiet('part', 0);
REVOKE CREATE ON SCHEMA public FROM reader;
SELECT * FROM since();
SELECT quiet('part', 0);
DROP OWNED BY reader;
SELECT * FROM since();

-- Roles are those of all databases.
CREATE ROLE readers ROLE reader;
SELECT quiet('part', 0);
SELECT current_database() AS this \gset
\c postgres
REVOKE readers FROM reader;
\c :this
SELECT * FROM since();
SELECT quiet('part', 0);
ALTER ROLE reader PASSWORD NULL NOSUPERUSER INHERIT;
ALTER GROUP readers ADD USER reader;
SELECT * FROM since();
ALTER GROUP readers DROP USER reader;
SELECT * FROM since();
SELECT quiet('part', 0);
ALTER ROLE reader NOINHERIT;
SELECT * FROM since();
SELECT quiet('part', 0);
DROP ROLE readers;
SELECT * FROM since();
CREATE ROLE operator SUPERUSER;
SELECT quiet('part', 0);
ALTER ROLE operator NOSUPERUSER;
SELECT * FROM since();

-- A role that may no longer begin a session keeps nothing, also by a session that it has.
CREATE ROLE visitor LOGIN;
GRANT SELECT ON part TO visitor;
SET SESSION AUTHORIZATION visitor;
SELECT krl.quiet(:nonce, 'part', :mark, '{0}');
RESET SESSION AUTHORIZATION;
ALTER ROLE visitor LOGIN;
SELECT * FROM since();
ALTER ROLE visitor NOLOGIN;
SELECT * FROM since();
SET SESSION AUTHORIZATION visitor;
SELECT krl.quiet(:nonce, 'part', :mark, '{0}');
RESET SESSION AUTHORIZATION;
ALTER ROLE visitor LOGIN;
SELECT quiet('part', 0);
SELECT FROM since();
REVOKE CONNECT ON DATABASE :this FROM PUBLIC;
SELECT * FROM since();
SET SESSION AUTHORIZATION visitor;
SELECT krl.quiet(:nonce, 'part', :mark, '{0}');
RESET SESSION AUTHORIZATION;
GRANT CONNECT ON DATABASE :this TO PUBLIC;
SELECT quiet('part', 0);
ALTER ROLE visitor VALID UNTIL '2001-02-03';
SELECT * FROM since();
SELECT quiet('part', 0);
ALTER ROLE visitor CONNECTION LIMIT 0;
SELECT * FROM since();
-- Another role may have the name next.
SELECT quiet('part', 0);
ALTER ROLE visitor RENAME TO guest;
SELECT * FROM since();

-- Databases: another one may have the name next.
SELECT quiet('part', 0);
CREATE DATABASE other_database;
SELECT * FROM since();
ALTER DATABASE other_database RENAME TO last_database;
SELECT * FROM since();
SELECT quiet('part', 0);
CREATE ROLE holder;
ALTER DATABASE last_database OWNER TO holder;
SELECT * FROM since();
SELECT quiet('part', 0);
REASSIGN OWNED BY holder TO CURRENT_USER;
SELECT * FROM since();
SELECT quiet('part', 0);
DROP DATABASE last_database WITH (FORCE);
SELECT * FROM since();
DROP ROLE holder;
SELECT FROM since();

-- Who drops a table needs no right to change krl.cached.
CREATE TABLE owned (id bigint PRIMARY KEY);
SELECT krl.cache('owned', stripes => 16);
ALTER TABLE owned OWNER TO reader;
SET ROLE reader;
DROP TABLE owned;
RESET ROLE;
SELECT * FROM krl.cached WHERE relation NOT IN (SELECT oid FROM pg_class);
SELECT FROM since();

-- Nor does the owner of a table who makes partitions of it.
CREATE SCHEMA own AUTHORIZATION reader;
CREATE TABLE own.parts (id bigint PRIMARY KEY) PARTITION BY RANGE (id);
ALTER TABLE own.parts OWNER TO reader;
SELECT krl.cache('own.parts', stripes => 16);
SET ROLE reader;
CREATE TABLE own.part0 PARTITION OF own.parts FOR VALUES FROM (0) TO (10);
CREATE TABLE own.part1 (id bigint PRIMARY KEY);
ALTER TABLE own.parts ATTACH PARTITION own.part1 FOR VALUES FROM (10) TO (20);
RESET ROLE;
SELECT krl.cache('own.parts');
SELECT quiet('own.parts', 1);
DROP SCHEMA own CASCADE;
SELECT FROM since();

SET ROLE reader;
SELECT krl.quiet(:nonce, 'part', :mark, '{0}');
RESET ROLE;

-- Tables that are not cached.
SELECT krl.quiet(:nonce, 'parent', :mark, '{0}');
SELECT krl.quiet(:nonce, 4000000000::oid, :mark, '{0}');

-- Triggers of the same names that note nothing.
CREATE FUNCTION nothing() RETURNS trigger LANGUAGE plpgsql AS 'BEGIN RETURN NULL; END';
CREATE TABLE feigned (id bigint PRIMARY KEY);
CREATE TRIGGER krl_changed AFTER INSERT OR UPDATE OR DELETE ON feigned
    FOR EACH ROW EXECUTE FUNCTION nothing('0', '64', 'remainder', 'id');
CREATE TRIGGER krl_truncated AFTER TRUNCATE ON feigned
    FOR EACH STATEMENT EXECUTE FUNCTION nothing('0', '64', 'remainder', 'id');
ALTER TABLE feigned ENABLE ALWAYS TRIGGER krl_changed;
ALTER TABLE feigned ENABLE ALWAYS TRIGGER krl_truncated;
SELECT krl.quiet(:nonce, 'feigned', 0, '{0}');
DROP TABLE feigned;

-- Lock files that a base backup would copy.
ALTER SYSTEM SET krl.directory = 'krl';
