"""Commits that are canceled, time out, are prepared, or are in progress while servers end."""
from checks.cluster import LEASE, Cluster, KrlServer, expect_refused
from checks.processes import expect, wait_until


def check_prepared(cluster):
    """A prepared transaction gives notice until it ends, also after PostgreSQL has crashed."""
    cluster.sql("BEGIN; UPDATE item SET n = 1 WHERE id = 5; PREPARE TRANSACTION 'prepared'")
    expect("whether rows of a prepared transaction may be kept", cluster.quiet("item", 5), False)
    cluster.stop()
    cluster.start()
    cluster.await_workers()
    expect("the same after a crash", cluster.quiet("item", 5), False)
    expect("whether other rows may be kept", cluster.quiet("item", 6), True)
    cluster.sql("COMMIT PREPARED 'prepared'")
    expect("whether its rows may be kept after its end", cluster.quiet("item", 5), True)
    expect("the row", cluster.sql("SELECT n FROM item WHERE id = 5"), "1")


def check_crash(cluster, reader):
    """After PostgreSQL has started again, readers have nothing of an earlier start."""
    keys = cluster.keep(reader, "item", 5)
    cluster.stop()
    cluster.start()
    cluster.await_workers()
    expect("whether the reader still has the cluster's mark", keys[0] in reader.held(keys), False)


def check_marks(cluster, reader):
    """A bulk change of one table takes only its rows back."""
    cluster.make_table("other")
    keys, others = cluster.keep(reader, "item", 5), cluster.keep(reader, "other", 5)
    cluster.sql("SET krl.recall_limit = 8; UPDATE item SET n = n + 1")
    expect("what a reader has of the table", reader.held(keys[1:]), keys[2:])
    expect("what a reader has of another table", reader.held(others), others)
    expect("whether rows of the table may be kept again", cluster.keep(reader, "item", 5), keys)


def check_merge(cluster, reader):
    """MERGE takes back what it changes."""
    if int(cluster.sql("SHOW server_version_num")) < 150000:
        return
    keys = cluster.keep(reader, "item", 9, 10)
    cluster.sql("MERGE INTO item USING (VALUES (9)) AS new (id) ON item.id = new.id "
                "WHEN MATCHED THEN UPDATE SET n = n + 1")
    expect("what a reader still has", reader.held(keys), [*keys[:2], keys[3]])


def check_ended(cluster, krl, reader, call, shown):
    """A commit that waits for krl can be canceled and ended: it is rolled back, and leaves no notice."""
    cluster.keep(reader, "item", 7)
    krl.stop()
    session = cluster.session()
    session.run("BEGIN", "UPDATE item SET n = 99 WHERE id = 7")
    session.send("COMMIT")
    cluster.await_commit(session)
    cluster.sql(f"SELECT {call}({session.pid})")
    printed = session.result()
    session.end()
    expect(f"what a commit prints after {call}: {printed}", shown in printed, True)
    notices = "SELECT count(*) FROM pg_locks WHERE locktype = 'advisory'"
    wait_until("its notices are gone", lambda: cluster.sql(notices) == "0")
    expect("the row", cluster.sql("SELECT n FROM item WHERE id = 7"), "0")
    krl.resume()
    cluster.await_workers()


def check_timeout(cluster, krl, reader):
    """A commit of what a reader may keep fails after krl.timeout if krl's server does not answer."""
    cluster.keep(reader, "item", 8)
    krl.stop()
    session = cluster.session()
    expect_refused("a commit", session.run("SET krl.timeout = '300ms'", "UPDATE item SET n = 99 WHERE id = 8"))
    expect("the row", cluster.sql("SELECT n FROM item WHERE id = 8"), "0")
    expect("a write of what nobody keeps", session.run("UPDATE other SET n = 1 WHERE id = 200 RETURNING n")[-1:], "1")
    session.end()
    krl.resume()
    cluster.await_workers()


def check_database(cluster, krl, reader):
    """A database is renamed and dropped only after everything was taken back, and before its files are removed. A copy
    of one has the same stripes."""
    cluster.sql("CREATE DATABASE old", database="postgres")
    keys = cluster.keep(reader, "item", 12)
    cluster.sql("ALTER DATABASE old RENAME TO gone", database="postgres")
    expect("whether the reader still has the cluster's mark", keys[0] in reader.held(keys), False)
    cluster.keep(reader, "item", 12)
    krl.stop()
    session = cluster.session()
    session.run("SET krl.timeout = '300ms'")
    expect_refused("a database", session.run("DROP DATABASE gone"))
    expect("what the database has", cluster.sql("SELECT 'it'", database="gone"), "it")
    krl.resume()
    cluster.await_workers()
    expect("what the drop of the database prints", session.run("DROP DATABASE gone WITH (FORCE)"), "")
    session.end()
    expect("whether the reader still has the cluster's mark", keys[0] in reader.held(keys), False)
    cluster.sql("CREATE DATABASE copy TEMPLATE checks", database="postgres")
    cluster.keep(reader, "item", 12)
    cluster.sql("UPDATE item SET n = n + 1 WHERE id = 12", database="copy")
    expect("what the reader has after a write of a copy", reader.held(keys), keys[:2])
    cluster.sql("DROP DATABASE copy", database="postgres")


def set_lease(cluster, lease):
    """Changes the lease for which krl.suspend waits."""
    cluster.sql(f"ALTER SYSTEM SET krl.lease = '{lease}'", "SELECT pg_reload_conf()")
    wait_until("the lease is changed", lambda: cluster.sql("SHOW krl.lease") == lease)


def check_suspension_ended(cluster):
    """If the session of krl.suspend is ended, transactions wait for krl, and readers may keep rows."""
    set_lease(cluster, "10min")
    session = cluster.session()
    session.send("SELECT krl.suspend(true)")
    cluster.await_commit(session)
    expect("whether rows may be kept meanwhile", cluster.quiet("item", 5), False)
    cluster.sql(f"SELECT pg_terminate_backend({session.pid})")
    session.end()
    there = f"SELECT count(*) FROM pg_stat_activity WHERE pid = {session.pid}"
    wait_until("the session has ended", lambda: cluster.sql(there) == "0")
    expect("whether rows may be kept after that", cluster.quiet("item", 5), True)
    set_lease(cluster, LEASE)


def check_suspended_crash(cluster, krl):
    """A cluster that is suspended is so after a crash, and commits without krl."""
    krl.end()
    cluster.sql("SELECT krl.suspend(true)")
    cluster.stop()
    cluster.start()
    cluster.sql("UPDATE item SET n = 50 WHERE id = 5")
    krl.start()
    cluster.sql("SELECT krl.resume()")
    cluster.await_workers()
    expect("whether rows may be kept again", cluster.quiet("item", 5), True)


def check_killed(cluster, krl, reader):
    """If PostgreSQL is killed, its workers end, also one that waits for krl: it could not be started again before."""
    cluster.keep(reader, "item", 11)
    krl.stop()
    session = cluster.session()
    session.run("SET krl.timeout = '1h'")
    session.send("UPDATE item SET n = 99 WHERE id = 11")
    cluster.await_commit(session)
    cluster.kill()
    session.end()
    krl.resume()
    cluster.start()
    cluster.await_workers()
    expect("the row", cluster.sql("SELECT n FROM item WHERE id = 11"), "0")


def check(installation):
    """Checks all of these."""
    krl = KrlServer(installation)
    cluster = Cluster(installation, "commits", 5432, f"krl.servers = '{krl.address}'", f"krl.lease = {LEASE}")
    cluster.sql("CREATE EXTENSION krl")
    cluster.make_table("item")
    cluster.await_workers()
    reader = cluster.reader(krl.address)
    check_prepared(cluster)
    check_crash(cluster, reader)
    check_marks(cluster, reader)
    cluster.sql("UPDATE item SET n = 0")
    check_merge(cluster, reader)
    check_ended(cluster, krl, reader, "pg_cancel_backend", "canceling statement due to user request")
    check_ended(cluster, krl, reader, "pg_terminate_backend", "terminating connection due to administrator command")
    check_timeout(cluster, krl, reader)
    check_database(cluster, krl, reader)
    check_suspension_ended(cluster)
    check_suspended_crash(cluster, krl)
    check_killed(cluster, krl, reader)
