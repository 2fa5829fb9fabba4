//! What is asked of the database.

/// Whether there is a store, of whatever version.
pub(crate) const HAS_STORE: &str = "SELECT to_regclass('krl.head') IS NOT NULL";

/// Whether all tables are there. The question needs no right to make any.
pub(crate) const HAS_TABLES: &str = "
    SELECT bool_and(to_regclass('krl.' || name) IS NOT NULL)
    FROM unnest(ARRAY['head', 'start', 'entry', 'client', 'lease', 'room', 'shard']) AS name";

/// The tables, unless they are there. Unsigned numbers of 64 bits are stored as signed ones. The
/// lock makes one of two servers that start over a new database wait for the other.
pub(crate) const TABLES: &str = "
    BEGIN;
    SELECT pg_advisory_xact_lock(7097964914);
    CREATE SCHEMA IF NOT EXISTS krl;
    CREATE TABLE IF NOT EXISTS krl.head (
        id integer PRIMARY KEY CHECK (id = 0), epoch bigint NOT NULL, owner text NOT NULL,
        transaction bigint NOT NULL, commits bigint NOT NULL, format bigint NOT NULL DEFAULT 1)
        WITH (fillfactor = 10);
    CREATE TABLE IF NOT EXISTS krl.start (
        epoch bigint PRIMARY KEY, owner text NOT NULL, commits bigint NOT NULL);
    CREATE TABLE IF NOT EXISTS krl.entry (key bigint PRIMARY KEY, value bytea NOT NULL);
    CREATE TABLE IF NOT EXISTS krl.client (
        client bigint PRIMARY KEY, place bigint NOT NULL, incarnation bigint NOT NULL,
        last bigint NOT NULL, outcome bigint NOT NULL, has_left bigint NOT NULL)
        WITH (fillfactor = 10);
    CREATE TABLE IF NOT EXISTS krl.lease (
        id integer PRIMARY KEY CHECK (id = 0), longest bigint NOT NULL, unleased bigint NOT NULL);
    CREATE TABLE IF NOT EXISTS krl.room (
        id integer PRIMARY KEY CHECK (id = 0), most_rows bigint NOT NULL);
    CREATE TABLE IF NOT EXISTS krl.shard (
        id integer PRIMARY KEY CHECK (id = 0), first bigint NOT NULL, last bigint NOT NULL,
        version bigint NOT NULL, sealed boolean NOT NULL);
    INSERT INTO krl.head VALUES (0, 0, repeat('0', 32), 0, 0) ON CONFLICT DO NOTHING;
    INSERT INTO krl.lease VALUES (0, 0, -1) ON CONFLICT DO NOTHING;
    COMMIT;";

/// A connection answers a commit when it is on the disk, and on the replicas that the database
/// waits for. A statement that waited for the head's row compares the row again. Both are so
/// whatever the database's own settings are. Each name without a schema is one of PostgreSQL's own,
/// whatever others have made in a schema of the role's search path.
pub(crate) const SESSION: &str = "
    SET synchronous_commit = on;
    SET default_transaction_isolation = 'read committed';
    SET search_path = pg_catalog, pg_temp;";

/// Whether the database itself writes to the disk what it reports as written.
pub(crate) const IS_SAFE: &str =
    "SELECT current_setting('fsync') = 'on' AND current_setting('full_page_writes') = 'on'";

pub(crate) const HEAD: &str = "SELECT epoch, owner, transaction, commits, format FROM krl.head";
pub(crate) const STARTS: &str = "SELECT owner, commits FROM krl.start ORDER BY epoch";
pub(crate) const ENTRIES: &str = "SELECT key, value FROM krl.entry";
pub(crate) const CLIENTS: &str =
    "SELECT client, incarnation, last, outcome, has_left FROM krl.client ORDER BY place";
pub(crate) const LEASES: &str = "SELECT longest, unleased FROM krl.lease";
pub(crate) const ROOM: &str = "SELECT most_rows FROM krl.room";
pub(crate) const SHARD: &str = "SELECT first, last, version, sealed FROM krl.shard";

/// Commits a batch if the head is as it should be, and makes the format this version's, so that no
/// server from before the shard was kept ignores it. It is one statement, and so one transaction:
/// the head's row is locked by it, and compared again once another one has let it go.
pub(crate) const COMMIT: &str = "
    WITH fence AS (
        UPDATE krl.head SET epoch = $1, owner = $2, transaction = $3, commits = $4, format = 3
        WHERE epoch = $5 AND owner = $6 AND transaction = $7 AND commits = $8 RETURNING 1),
    past AS (
        INSERT INTO krl.start SELECT $5, $6, $8 WHERE $9 AND EXISTS (SELECT FROM fence)),
    first AS (
        INSERT INTO krl.start SELECT 0, $23::text, 0
        WHERE $23::text IS NOT NULL AND EXISTS (SELECT FROM fence)),
    puts AS (
        INSERT INTO krl.entry SELECT * FROM unnest($10::bigint[], $11::bytea[])
        WHERE EXISTS (SELECT FROM fence)
        ON CONFLICT (key) DO UPDATE SET value = excluded.value),
    deletes AS (
        DELETE FROM krl.entry WHERE key = ANY($12::bigint[]) AND EXISTS (SELECT FROM fence)),
    clients AS (
        INSERT INTO krl.client
        SELECT * FROM unnest($13::bigint[], $14::bigint[], $15::bigint[], $16::bigint[],
            $17::bigint[], $18::bigint[])
        WHERE EXISTS (SELECT FROM fence)
        ON CONFLICT (client) DO UPDATE SET incarnation = excluded.incarnation,
            last = excluded.last, outcome = excluded.outcome, has_left = excluded.has_left),
    leases AS (
        UPDATE krl.lease SET longest = $20, unleased = $21
        WHERE $19 AND EXISTS (SELECT FROM fence)),
    room AS (
        INSERT INTO krl.room SELECT 0, $22::bigint
        WHERE $22::bigint IS NOT NULL AND EXISTS (SELECT FROM fence)
        ON CONFLICT (id) DO UPDATE SET most_rows = excluded.most_rows),
    shard AS (
        INSERT INTO krl.shard SELECT 0, $24::bigint, $25::bigint, $26::bigint, $27::boolean
        WHERE $24::bigint IS NOT NULL AND EXISTS (SELECT FROM fence)
        ON CONFLICT (id) DO UPDATE SET first = excluded.first, last = excluded.last,
            version = excluded.version, sealed = excluded.sealed),
    others AS (
        DELETE FROM krl.entry WHERE (key < $24::bigint OR key > $25::bigint)
        AND NOT key = ANY($12::bigint[]) AND EXISTS (SELECT FROM fence))
    SELECT count(*) FROM fence";

/// Removes what a store has if the head is as it should be, in one statement as a commit.
pub(crate) const REMOVE: &str = "
    WITH fence AS (
        UPDATE krl.head SET epoch = 0, owner = repeat('0', 32), transaction = 0, commits = 0
        WHERE epoch = $1 AND owner = $2 AND transaction = $3 AND commits = $4 RETURNING 1),
    starts AS (DELETE FROM krl.start WHERE EXISTS (SELECT FROM fence)),
    entries AS (DELETE FROM krl.entry WHERE EXISTS (SELECT FROM fence)),
    clients AS (DELETE FROM krl.client WHERE EXISTS (SELECT FROM fence)),
    leases AS (
        UPDATE krl.lease SET longest = 0, unleased = -1 WHERE EXISTS (SELECT FROM fence)),
    rooms AS (DELETE FROM krl.room WHERE EXISTS (SELECT FROM fence)),
    shards AS (DELETE FROM krl.shard WHERE EXISTS (SELECT FROM fence))
    SELECT count(*) FROM fence";

/// Asks whether the head is as it should be. It writes the row, so that it comes to the replicas
/// that a commit comes to.
pub(crate) const CONFIRM: &str = "
    WITH fence AS (
        UPDATE krl.head SET epoch = epoch
        WHERE epoch = $1 AND owner = $2 AND transaction = $3 AND commits = $4 RETURNING 1)
    SELECT count(*) FROM fence";

pub(crate) const HAS_MAP: &str = "SELECT to_regclass('krl.map') IS NOT NULL";

/// The table of a map of shards. It belongs to no store.
pub(crate) const MAP_TABLE: &str = "
    BEGIN;
    SELECT pg_advisory_xact_lock(7097964914);
    CREATE SCHEMA IF NOT EXISTS krl;
    CREATE TABLE IF NOT EXISTS krl.map (id integer PRIMARY KEY CHECK (id = 0), map text NOT NULL);
    COMMIT;";

pub(crate) const MAP: &str = "SELECT map FROM krl.map";
pub(crate) const FIRST_MAP: &str = "INSERT INTO krl.map VALUES (0, $1) ON CONFLICT DO NOTHING";
pub(crate) const REPLACE_MAP: &str = "UPDATE krl.map SET map = $2 WHERE map = $1";
pub(crate) const LISTEN: &str = "LISTEN krl_map";
pub(crate) const NOTIFY: &str = "NOTIFY krl_map";
