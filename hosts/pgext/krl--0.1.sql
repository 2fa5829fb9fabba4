\echo Use "CREATE EXTENSION krl" to load this file. \quit

-- Who owns the schema may make functions there that operators call in place of these.
DO $$
BEGIN
    IF NOT (SELECT rolsuper FROM pg_catalog.pg_namespace JOIN pg_catalog.pg_roles ON pg_roles.oid = nspowner
        WHERE nspname = 'krl') THEN
        RAISE EXCEPTION 'schema "krl" belongs to a role that is not a superuser'
            USING ERRCODE = 'invalid_schema_definition', HINT = 'Drop it: CREATE EXTENSION makes it.';
    END IF;
END $$;

-- The keys of krl of a table are those of another one only after that is no longer cached.
CREATE TABLE krl.cached (
    relation regclass PRIMARY KEY,
    key_columns name[] NOT NULL,
    mark integer NOT NULL,
    stripes integer NOT NULL CHECK (stripes > 0),
    by_remainder boolean NOT NULL,
    EXCLUDE USING gist (int4range(mark, mark + stripes, '[]') WITH &&)
);
COMMENT ON TABLE krl.cached IS 'the tables that are cached';
COMMENT ON COLUMN krl.cached.mark IS 'the key of krl of the table''s mark, which its stripes follow';
COMMENT ON COLUMN krl.cached.by_remainder IS
    'whether the stripe of a key is its remainder by the number of stripes, and not krl.stripe';

-- Whoever dumps the database reads it, and so do readers.
GRANT USAGE ON SCHEMA krl TO PUBLIC;
GRANT SELECT ON krl.cached TO PUBLIC;
SELECT pg_catalog.pg_extension_config_dump('krl.cached', '');

CREATE FUNCTION krl.changed() RETURNS trigger
    LANGUAGE C AS 'MODULE_PATHNAME', 'krl_changed';
REVOKE ALL ON FUNCTION krl.changed() FROM PUBLIC;
COMMENT ON FUNCTION krl.changed() IS
    'notes which stripes the transaction changes: the trigger of cached tables';

-- A table that is dropped is no longer cached, whoever drops it.
CREATE FUNCTION krl.forget_dropped() RETURNS event_trigger
    LANGUAGE plpgsql SECURITY DEFINER SET search_path = pg_catalog, pg_temp AS $$
BEGIN
    DELETE FROM krl.cached WHERE relation IN (SELECT objid FROM pg_event_trigger_dropped_objects()
        WHERE classid = 'pg_class'::regclass AND objsubid = 0);
END $$;
REVOKE ALL ON FUNCTION krl.forget_dropped() FROM PUBLIC;
CREATE EVENT TRIGGER krl_dropped ON sql_drop EXECUTE FUNCTION krl.forget_dropped();
ALTER EVENT TRIGGER krl_dropped ENABLE ALWAYS;

CREATE FUNCTION krl.quiet(nonce bigint, relation regclass, mark integer, stripes integer[])
    RETURNS boolean LANGUAGE C STRICT VOLATILE AS 'MODULE_PATHNAME', 'krl_quiet';
COMMENT ON FUNCTION krl.quiet(bigint, regclass, integer, integer[]) IS
    'whether who holds these stripes in krl, and both marks, may keep rows selected after this';

CREATE FUNCTION krl.stripe(stripes integer, VARIADIC key text[]) RETURNS integer
    LANGUAGE C STRICT IMMUTABLE PARALLEL SAFE AS 'MODULE_PATHNAME', 'krl_stripe';
COMMENT ON FUNCTION krl.stripe(integer, text[]) IS
    'the stripe of a key of several columns, or of one that is no integer';

CREATE FUNCTION krl.servers() RETURNS text
    LANGUAGE C STRICT STABLE AS 'MODULE_PATHNAME', 'krl_addresses';
COMMENT ON FUNCTION krl.servers() IS 'the addresses of krl''s servers, as readers join them';

CREATE FUNCTION krl.nonce() RETURNS bigint
    LANGUAGE C STRICT VOLATILE AS 'MODULE_PATHNAME', 'krl_nonce';
REVOKE ALL ON FUNCTION krl.nonce() FROM PUBLIC;
COMMENT ON FUNCTION krl.nonce() IS
    'the value of the cluster''s mark since this start, or 0 until it has it; readers read the mark';

CREATE FUNCTION krl.make(first integer, keys integer) RETURNS void
    LANGUAGE C STRICT VOLATILE AS 'MODULE_PATHNAME', 'krl_make';
REVOKE ALL ON FUNCTION krl.make(integer, integer) FROM PUBLIC;
COMMENT ON FUNCTION krl.make(integer, integer) IS 'makes rows of krl for these keys';

CREATE FUNCTION krl.worker(number integer, OUT is_ready boolean, OUT fault text, OUT pid integer,
    OUT spans bigint, OUT failures bigint, OUT milliseconds double precision)
    RETURNS record LANGUAGE C STRICT VOLATILE AS 'MODULE_PATHNAME', 'krl_worker';

CREATE VIEW krl.workers AS
    SELECT number, worker.*
    FROM pg_catalog.generate_series(0, pg_catalog.current_setting('krl.workers')::integer - 1)
        AS number, LATERAL krl.worker(number) AS worker;
COMMENT ON VIEW krl.workers IS 'what each worker has done since the server started';
GRANT SELECT ON krl.workers TO pg_monitor;
REVOKE ALL ON FUNCTION krl.worker(integer) FROM PUBLIC;
GRANT EXECUTE ON FUNCTION krl.worker(integer) TO pg_monitor;

CREATE FUNCTION krl.requests(OUT pid integer, OUT key bigint, OUT end_key bigint, OUT is_in_work boolean)
    RETURNS SETOF record LANGUAGE C STRICT VOLATILE AS 'MODULE_PATHNAME', 'krl_requests';
REVOKE ALL ON FUNCTION krl.requests() FROM PUBLIC;
GRANT EXECUTE ON FUNCTION krl.requests() TO pg_monitor;

CREATE VIEW krl.waiting AS
    SELECT request.pid, cached.relation, request.is_in_work
    FROM krl.requests() AS request LEFT JOIN krl.cached ON key BETWEEN mark AND mark + stripes;
COMMENT ON VIEW krl.waiting IS
    'the sessions that wait until rows are taken back; the relation is null if it is of another database';
GRANT SELECT ON krl.waiting TO pg_monitor;

CREATE FUNCTION krl.clients() RETURNS text
    LANGUAGE C STRICT VOLATILE AS 'MODULE_PATHNAME', 'krl_clients';
REVOKE ALL ON FUNCTION krl.clients() FROM PUBLIC;
GRANT EXECUTE ON FUNCTION krl.clients() TO pg_monitor;
COMMENT ON FUNCTION krl.clients() IS 'the clients of krl''s server, in JSON, as its status port lists them';

CREATE VIEW krl.readers AS
    WITH clients AS MATERIALIZED (
        SELECT * FROM pg_catalog.jsonb_to_recordset(krl.clients()::jsonb -> 'clients') AS client (
            client integer, peer text, connected_seconds double precision, slots bigint, wait jsonb))
    SELECT client AS number, NULLIF(pg_catalog.substring(peer, 'process=([0-9]+)')::integer, 0) AS pid, peer AS address,
        pg_catalog.clock_timestamp() - pg_catalog.make_interval(secs => connected_seconds) AS connected_since, slots,
        ARRAY(SELECT pid FROM krl.requests() JOIN clients AS worker
                ON (worker.wait ->> 'point')::bigint >= key AND (worker.wait ->> 'point')::bigint < end_key
            WHERE is_in_work AND worker.wait -> 'waits_for' @> pg_catalog.to_jsonb(reader.client)) AS delays
    FROM clients AS reader, pg_catalog.current_setting('krl.first_client') AS first
    WHERE client NOT BETWEEN first::integer
        AND first::integer + pg_catalog.current_setting('krl.workers')::integer - 1;
COMMENT ON VIEW krl.readers IS
    'the processes that may keep rows, and the sessions whose commits wait for each';
GRANT SELECT ON krl.readers TO pg_monitor;

CREATE FUNCTION krl.skipped() RETURNS bigint
    LANGUAGE C STRICT VOLATILE AS 'MODULE_PATHNAME', 'krl_skipped';
REVOKE ALL ON FUNCTION krl.skipped() FROM PUBLIC;
GRANT EXECUTE ON FUNCTION krl.skipped() TO pg_monitor;
COMMENT ON FUNCTION krl.skipped() IS
    'how many keys were changed of which nobody had kept anything';

CREATE FUNCTION krl.suspend(krl_server_is_stopped boolean) RETURNS void
    LANGUAGE C STRICT VOLATILE AS 'MODULE_PATHNAME', 'krl_suspend';
REVOKE ALL ON FUNCTION krl.suspend(boolean) FROM PUBLIC;
COMMENT ON FUNCTION krl.suspend(boolean) IS
    'waits until the leases of all readers have ended; then transactions commit without krl, until krl.resume';

CREATE FUNCTION krl.resume() RETURNS void
    LANGUAGE C STRICT VOLATILE AS 'MODULE_PATHNAME', 'krl_resume';
REVOKE ALL ON FUNCTION krl.resume() FROM PUBLIC;
COMMENT ON FUNCTION krl.resume() IS 'transactions wait for krl again, and readers keep rows';

-- The columns of the primary key, in their order, or null if there is none.
CREATE FUNCTION krl.primary_key(relation regclass) RETURNS name[]
    LANGUAGE sql STABLE SET search_path = pg_catalog, pg_temp AS $$
    SELECT array_agg(attname ORDER BY place)
    FROM pg_index, unnest(indkey::smallint[]) WITH ORDINALITY AS part (attnum, place)
        JOIN pg_attribute USING (attnum)
    WHERE indrelid = relation AND indisprimary AND attrelid = relation AND place <= indnkeyatts
$$;
REVOKE ALL ON FUNCTION krl.primary_key(regclass) FROM PUBLIC;

-- The triggers of the table with this mark and of its partitions, also of those that were detached.
CREATE FUNCTION krl.triggers(mark integer) RETURNS SETOF pg_catalog.pg_trigger
    LANGUAGE sql STABLE SET search_path = pg_catalog, pg_temp AS $$
    SELECT * FROM pg_trigger
    WHERE tgfoid = 'krl.changed()'::regprocedure AND split_part(encode(tgargs, 'escape'), E'\\000', 1) = mark::text
$$;
REVOKE ALL ON FUNCTION krl.triggers(integer) FROM PUBLIC;

-- Reports why the table cannot be cached by these columns, if it cannot.
CREATE FUNCTION krl.require_cacheable(relation regclass, key_columns name[]) RETURNS void
    LANGUAGE plpgsql SET search_path = pg_catalog, pg_temp AS $$
DECLARE
    class pg_class := (SELECT class FROM pg_class AS class WHERE oid = relation);
    fleeting regclass := (SELECT min(oid) FROM pg_class WHERE relpersistence <> 'p'
        AND (oid = relation OR oid IN (SELECT relid FROM pg_partition_tree(relation))));
    name name;
    attribute pg_attribute;
BEGIN
    IF class.relkind NOT IN ('r', 'p') THEN
        RAISE EXCEPTION 'cannot cache "%": it is not a table', relation
            USING ERRCODE = 'wrong_object_type';
    ELSIF fleeting IS NOT NULL THEN
        RAISE EXCEPTION 'cannot cache "%": "%" is a temporary or unlogged table', relation, fleeting
            USING ERRCODE = 'wrong_object_type';
    ELSIF class.relrowsecurity THEN
        RAISE EXCEPTION 'cannot cache "%": its rows are under row-level security', relation
            USING ERRCODE = 'feature_not_supported',
                DETAIL = 'A reader would keep what its role sees, also after a policy has changed.';
    ELSIF class.relispartition THEN
        RAISE EXCEPTION 'cannot cache "%": it is a partition', relation
            USING ERRCODE = 'wrong_object_type', HINT = 'Cache the table that it is a partition of.';
    ELSIF key_columns IS NULL OR cardinality(key_columns) = 0 THEN
        RAISE EXCEPTION 'cannot cache "%": it has no primary key', relation
            USING ERRCODE = 'invalid_table_definition',
                HINT = 'Name the columns by which readers look for its rows.';
    END IF;
    FOREACH name IN ARRAY key_columns LOOP
        SELECT * INTO attribute FROM pg_attribute
        WHERE attrelid = relation AND attname = name AND attnum > 0 AND NOT attisdropped;
        IF NOT FOUND THEN
            RAISE EXCEPTION 'cannot cache "%": it has no column "%"', relation, name
                USING ERRCODE = 'undefined_column';
        ELSIF attribute.atttypid NOT IN ('smallint'::regtype, 'integer'::regtype, 'bigint'::regtype,
            'text'::regtype, 'varchar'::regtype, 'uuid'::regtype) THEN
            RAISE EXCEPTION 'cannot cache "%" by column "%" of type %', relation, name,
                format_type(attribute.atttypid, attribute.atttypmod)
                USING ERRCODE = 'datatype_mismatch',
                    HINT = 'Key columns are of type smallint, integer, bigint, text, varchar or uuid.';
        ELSIF NOT coalesce((SELECT collisdeterministic FROM pg_collation
            WHERE oid = attribute.attcollation), true) THEN
            RAISE EXCEPTION 'cannot cache "%" by column "%": its collation is nondeterministic',
                relation, name USING ERRCODE = 'datatype_mismatch';
        END IF;
    END LOOP;
END $$;
REVOKE ALL ON FUNCTION krl.require_cacheable(regclass, name[]) FROM PUBLIC;

-- The first of so many keys of krl that no table has. Others who look for such keys wait until this transaction ends.
CREATE FUNCTION krl.free_key(keys integer) RETURNS integer
    LANGUAGE plpgsql SET search_path = pg_catalog, pg_temp AS $$
BEGIN
    LOCK TABLE krl.cached IN SHARE UPDATE EXCLUSIVE MODE;
    RETURN (SELECT min(key) FROM (SELECT 0 UNION SELECT mark + stripes + 1 FROM krl.cached) AS next (key)
        WHERE NOT EXISTS (SELECT FROM krl.cached WHERE key <= mark + stripes AND mark < key + keys));
END $$;
REVOKE ALL ON FUNCTION krl.free_key(integer) FROM PUBLIC;

CREATE FUNCTION krl.cache(relation regclass, key_columns name[] DEFAULT NULL,
    stripes integer DEFAULT 4096) RETURNS void
    LANGUAGE plpgsql SET search_path = pg_catalog, pg_temp AS $$
DECLARE
    columns name[];
    entry krl.cached;
BEGIN
    SELECT * INTO entry FROM krl.cached WHERE cached.relation = cache.relation;
    columns := coalesce(key_columns, entry.key_columns, krl.primary_key(relation));
    PERFORM krl.require_cacheable(relation, columns);
    IF columns <> entry.key_columns THEN
        RAISE EXCEPTION 'table "%" is cached by its columns %, and not by %', relation, entry.key_columns, columns
            USING ERRCODE = 'object_not_in_prerequisite_state', HINT = 'Call krl.uncache first.';
    ELSIF entry.relation IS NULL THEN
        IF stripes < 1 THEN
            RAISE EXCEPTION 'a table has one stripe or more, and not %', stripes
                USING ERRCODE = 'invalid_parameter_value';
        END IF;
        entry := (relation, columns, krl.free_key(1 + stripes), stripes, cardinality(columns) = 1
            AND (SELECT atttypid IN ('smallint'::regtype, 'integer'::regtype, 'bigint'::regtype)
                FROM pg_attribute WHERE attrelid = relation AND attname = columns[1]));
        INSERT INTO krl.cached SELECT entry.*;
    END IF;
    PERFORM krl.make(entry.mark, 1 + entry.stripes);
    PERFORM krl.add_triggers(entry);
END $$;
REVOKE ALL ON FUNCTION krl.cache(regclass, name[], integer) FROM PUBLIC;
COMMENT ON FUNCTION krl.cache(regclass, name[], integer) IS
    'lets readers keep rows of the table; called again, also those of new partitions, and by another store of krl';

-- The table and all its partitions get the triggers that they lack, also in place of those of other stripes, which a
-- table has that was restored by itself; and all of them fire always. Partitions have that of rows from their table,
-- and so their owner makes it, but not that of TRUNCATE.
CREATE FUNCTION krl.add_triggers(cached krl.cached) RETURNS void
    LANGUAGE plpgsql SET search_path = pg_catalog, pg_temp AS $$
DECLARE
    words text[] := ARRAY[cached.mark::text, cached.stripes::text,
        CASE WHEN cached.by_remainder THEN 'remainder' ELSE 'hash' END] || cached.key_columns::text[];
    arguments text := (SELECT string_agg(quote_literal(word), ', ') FROM unnest(words) AS word);
    stored bytea := (SELECT string_agg(convert_to(word, getdatabaseencoding()) || '\x00', '')
        FROM unnest(words) AS word);
    part regclass;
    name name;
BEGIN
    IF NOT EXISTS (SELECT FROM pg_trigger
        WHERE tgrelid = cached.relation AND tgname = 'krl_changed' AND tgargs = stored) THEN
        EXECUTE format('CREATE OR REPLACE TRIGGER krl_changed AFTER INSERT OR UPDATE OR DELETE ON %s
            FOR EACH ROW EXECUTE FUNCTION krl.changed(%s)', cached.relation, arguments);
    END IF;
    FOR part IN
        SELECT cached.relation UNION SELECT relid FROM pg_partition_tree(cached.relation)
        EXCEPT SELECT tgrelid FROM krl.triggers(cached.mark) WHERE tgname = 'krl_truncated'
    LOOP
        EXECUTE format('CREATE OR REPLACE TRIGGER krl_truncated AFTER TRUNCATE ON %s
            FOR EACH STATEMENT EXECUTE FUNCTION krl.changed(%s)', part, arguments);
    END LOOP;
    FOR part, name IN SELECT tgrelid, tgname FROM krl.triggers(cached.mark) WHERE tgenabled <> 'A' LOOP
        EXECUTE format('ALTER TABLE ONLY %s ENABLE ALWAYS TRIGGER %I', part, name);
    END LOOP;
    SELECT pg_get_userbyid(relowner) INTO name FROM pg_class WHERE oid = cached.relation AND relkind = 'p'
        AND NOT has_function_privilege(relowner, 'krl.changed()', 'EXECUTE');
    IF FOUND THEN
        EXECUTE format('GRANT EXECUTE ON FUNCTION krl.changed() TO %I', name);
    END IF;
END $$;
REVOKE ALL ON FUNCTION krl.add_triggers(krl.cached) FROM PUBLIC;

CREATE FUNCTION krl.uncache(relation regclass) RETURNS void
    LANGUAGE plpgsql SET search_path = pg_catalog, pg_temp AS $$
DECLARE
    entry krl.cached;
    part regclass;
    name name;
BEGIN
    DELETE FROM krl.cached WHERE cached.relation = uncache.relation RETURNING * INTO entry;
    IF NOT FOUND THEN
        RAISE EXCEPTION 'table "%" is not cached', relation
            USING ERRCODE = 'object_not_in_prerequisite_state';
    END IF;
    -- Those of the partitions go with that of their table, and those of partitions that were detached are left.
    FOR part, name IN SELECT tgrelid, tgname FROM krl.triggers(entry.mark) WHERE tgparentid = 0 LOOP
        EXECUTE format('DROP TRIGGER %I ON %s', name, part);
    END LOOP;
END $$;
REVOKE ALL ON FUNCTION krl.uncache(regclass) FROM PUBLIC;
COMMENT ON FUNCTION krl.uncache(regclass) IS 'ends the caching of the table';
