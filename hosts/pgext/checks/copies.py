"""Clusters that are copies: a standby that is promoted, a subscription, and a dump that is restored."""
from checks.cluster import LEASE, Cluster, KrlServer, expect_refused, run
from checks.processes import expect, wait_until


def make_standby(installation, primary, krl):
    """Makes a standby of the primary, and waits until it has all of its changes."""
    standby = Cluster(installation, "standby", 5433, f"krl.servers = '{krl.address}'", f"krl.lease = {LEASE}",
                      "krl.workers = 4", "hot_standby_feedback = on", copy_of=primary)
    place = primary.sql("SELECT pg_current_wal_flush_lsn()")
    replayed = f"SELECT pg_last_wal_replay_lsn() >= '{place}'"
    wait_until("the standby has replayed all", lambda: standby.sql(replayed) == "t")
    return standby


def check_standby(installation, primary, krl, reader):
    """A standby that is promoted writes cached rows only after the first worker of the old primary is gone."""
    primary.sql("BEGIN; UPDATE item SET n = 1 WHERE id = 5; PREPARE TRANSACTION 'prepared'")
    standby = make_standby(installation, primary, krl)
    expect("whether a standby lets readers keep rows", standby.quiet("item", 6), False)
    keys = primary.keep(reader, "item", 6)
    standby.control("promote")
    waits = "fault = 'the first worker has not taken the mark of the cluster'"
    started = f"SELECT bool_and(is_ready OR {waits}) FROM krl.workers WHERE number > 0"
    wait_until("the other workers have started", lambda: standby.sql(started) == "t")
    expect("how many workers work", standby.sql("SELECT count(*) FROM krl.workers WHERE is_ready"), "0")
    session = standby.session()
    session.run("SET krl.timeout = '500ms'")
    expect_refused("a write of the new primary", session.run("UPDATE item SET n = 2 WHERE id = 6"))
    session.end()
    expect("what a reader of the old primary has", reader.held(keys), keys)
    primary.stop()
    standby.await_workers()
    expect("whether it still has the cluster's mark", keys[0] in reader.held(keys), False)
    standby.sql("UPDATE item SET n = 2 WHERE id = 6")
    expect("whether rows of a prepared transaction may be kept", standby.quiet("item", 5), False)
    standby.sql("COMMIT PREPARED 'prepared'")
    expect("whether its rows may be kept after its end", standby.quiet("item", 5), True)
    standby.stop()


def check_subscription(cluster, reader):
    """What a subscription copies and applies is taken back from readers."""
    stripe = 1000 % 64
    cluster.sql("CREATE DATABASE source", database="postgres")
    cluster.sql("CREATE TABLE item (id bigint PRIMARY KEY, n bigint NOT NULL)", "INSERT INTO item VALUES (1000, 1)",
                "CREATE PUBLICATION items FOR TABLE item", database="source")
    cluster.sql("SELECT pg_create_logical_replication_slot('items', 'pgoutput')", database="source")
    keys = cluster.keep(reader, "item", stripe)
    source = f"host={cluster.folder} port={cluster.port} user=postgres dbname=source"
    cluster.sql(f"CREATE SUBSCRIPTION items CONNECTION '{source}' PUBLICATION items "
                "WITH (create_slot = false, slot_name = 'items')")
    copied = "SELECT n FROM item WHERE id = 1000"
    wait_until("the row is copied", lambda: cluster.sql(copied) == "1")
    expect("what a reader has after the copy", reader.held(keys), keys[:2])
    cluster.keep(reader, "item", stripe)
    cluster.sql("UPDATE item SET n = 2 WHERE id = 1000", database="source")
    wait_until("the change is applied", lambda: cluster.sql(copied) == "2")
    expect("what a reader has after the change", reader.held(keys), keys[:2])
    cluster.sql("ALTER SUBSCRIPTION items DISABLE", "ALTER SUBSCRIPTION items SET (slot_name = NONE)",
                "DROP SUBSCRIPTION items")
    free = "SELECT count(*) FROM pg_replication_slots WHERE slot_name = 'items' AND NOT active"
    wait_until("the slot is free", lambda: cluster.sql(free) == "1")
    cluster.sql("SELECT pg_drop_replication_slot('items')", "DELETE FROM item WHERE id = 1000")


def check_dump_of_owner(installation, cluster):
    """A role that owns the tables, and nothing of the extension, dumps its database. Then the extension is removed."""
    cluster.sql("CREATE DATABASE owned", database="postgres")
    cluster.sql("CREATE EXTENSION krl", "CREATE ROLE owner LOGIN", "CREATE TABLE own (id bigint PRIMARY KEY)",
                "ALTER TABLE own OWNER TO owner", "SELECT krl.cache('own', stripes => 16)", database="owned")
    where = ["-h", cluster.folder, "-p", cluster.port, "-U", "owner"]
    installation.run("pg_dump", *where, "-f", installation.folder / "owned.sql", "owned")
    cluster.sql("SELECT krl.uncache(relation) FROM krl.cached", "DROP EXTENSION krl", database="owned")


def check_dump(installation, cluster, reader_number):
    """A dump that is restored into another cluster, with another store of krl, has the cached tables."""
    cluster.sql("CREATE TABLE place (country text, code text, PRIMARY KEY (country, code))",
                "SELECT krl.cache('place', '{code}', stripes => 16)")
    dump = installation.folder / "checks.sql"
    where = ["-h", cluster.folder, "-p", cluster.port, "-U", "postgres"]
    installation.run("pg_dump", *where, "-f", dump, "checks")
    krl = KrlServer(installation, "second")
    copy = Cluster(installation, "copy", 5433, f"krl.servers = '{krl.address}'", f"krl.lease = {LEASE}")
    run(*copy.psql(), "-v", "ON_ERROR_STOP=1", "-f", dump)
    copy.await_workers()
    tables = "SELECT relation, key_columns, mark, stripes, by_remainder FROM krl.cached ORDER BY mark"
    expect("the cached tables", copy.sql(tables), cluster.sql(tables))
    copy.sql("SELECT krl.cache(relation) FROM krl.cached")
    reader = copy.reader(krl.address, reader_number)
    keys = copy.keep(reader, "item", 5, 6)
    copy.sql("UPDATE item SET n = n + 1 WHERE id = 5")
    expect("what a reader has after a write", reader.held(keys), [*keys[:2], keys[3]])
    copy.make_table("later")
    free = "SELECT min(later.mark) > max(cached.mark + cached.stripes) FROM krl.cached, krl.cached AS later " \
        "WHERE later.relation = 'later'::regclass AND cached.relation <> later.relation"
    expect("whether a table that is cached later has keys of its own", copy.sql(free), "t")


def check(installation):
    """Checks all of these."""
    krl = KrlServer(installation)
    # The numbers of the other workers of its standby are free.
    primary = Cluster(installation, "primary", 5432, f"krl.servers = '{krl.address}'", f"krl.lease = {LEASE}",
                      "krl.workers = 1")
    primary.sql("CREATE EXTENSION krl")
    primary.make_table("item")
    primary.await_workers()
    reader = primary.reader(krl.address)
    check_subscription(primary, reader)
    check_dump_of_owner(installation, primary)
    check_dump(installation, primary, 1)
    for it in installation.started[3:]:
        it.end()
    check_standby(installation, primary, krl, reader)
