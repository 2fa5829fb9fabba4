"""krl's server, which a worker starts and watches."""
import os
import signal
from pathlib import Path

from checks.cluster import LEASE, Cluster, free_port
from checks.processes import expect, is_running, running, wait_until


def words_of(pid):
    """The words by which a process was started."""
    try:
        return Path(f"/proc/{pid}/cmdline").read_text(encoding="utf-8", errors="replace").split("\0")
    except OSError:
        return []


def server_of(cluster):
    """The process of krl's server, or None if there is none."""
    return next((pid for pid in running() if f"{cluster.data}.krl/krl.db" in words_of(pid)), None)


def check_use(cluster, reader):
    """Readers use it at the address that the database names, and writes take back what they keep."""
    keys = cluster.keep(reader, "item", 5, 6)
    cluster.sql("UPDATE item SET n = n + 1 WHERE id = 5")
    expect("what a reader has after a write", reader.held(keys), [*keys[:2], keys[3]])


def check_status(cluster, reader):
    """It shows its status where the setting states."""
    shown = "SELECT number, pid FROM krl.readers"
    wait_until("the reader is shown", lambda: cluster.sql(shown) == f"0|{reader.process.pid}")


def check_killed(cluster, reader):
    """If it ends, it is started again over the same store."""
    killed = server_of(cluster)
    os.kill(killed, signal.SIGKILL)
    wait_until("another server runs", lambda: server_of(cluster) not in (killed, None))
    cluster.await_workers()
    check_use(cluster, reader)
    expect("whether PostgreSQL's log has its end", "krl's server ended" in cluster.log.read_text(), True)
    expect("whether PostgreSQL's log has its log", "krl-server: " in cluster.log.read_text(), True)


def check_suspended(cluster):
    """krl.suspend stops it while it waits for leases."""
    before = server_of(cluster)
    session = cluster.session()
    session.send("SELECT krl.suspend(true)")
    wait_until("the server ends", lambda: not is_running(before) or not cluster.is_busy(session))
    expect("whether it runs on while leases are waited for", is_running(before), False)
    found = server_of(cluster)
    if cluster.is_busy(session):
        expect("which server runs meanwhile", found, None)
    session.result()
    session.end()
    cluster.sql("UPDATE item SET n = n + 1")
    cluster.sql("SELECT krl.resume()")
    cluster.await_workers()
    expect("whether rows may be kept again", cluster.quiet("item", 5), True)


def refuses_store(cluster):
    """Waits until the workers have joined a server, or the first one refuses its store. Returns whether it does."""
    found = "SELECT count(*) FILTER (WHERE is_ready), count(*) FILTER (WHERE number = 0 AND fault = " \
        "'krl''s server does not have the store of this cluster') FROM krl.workers"
    return wait_until("the workers have joined", lambda: {"4|0": "no", "0|1": "yes"}.get(cluster.sql(found))) == "yes"


def check_copy(installation, cluster):
    """A copy of the cluster has another store, and refuses it: readers may keep rows by the server of the first."""
    copy = Cluster(installation, "backup", 5433, f"krl.lease = {LEASE}", "krl.server_status = off", copy_of=cluster)
    copy.control("promote")
    expect("whether the copy refuses the store of its server", refuses_store(copy), True)
    copy.stop()


def check_lost_store(cluster):
    """If its store is lost, the cluster takes another one only after it was suspended."""
    cluster.stop("fast")
    for file in Path(f"{cluster.data}.krl").glob("krl.db*"):
        file.unlink()
    cluster.start()
    expect("whether the cluster refuses the other store", refuses_store(cluster), True)
    cluster.sql("SELECT krl.suspend(true)", "SELECT krl.resume()")
    cluster.await_workers()
    expect("whether rows may be kept again", cluster.quiet("item", 5), True)


def check_end(cluster):
    """It ends with PostgreSQL, however that ends."""
    for end in (lambda: cluster.stop("fast"), cluster.stop, cluster.kill):
        process = server_of(cluster)
        end()
        wait_until("the server ends with PostgreSQL", lambda: not is_running(process))
        cluster.start()
        wait_until("a server runs again", lambda: server_of(cluster))
    cluster.await_workers()


def check(installation):
    """Checks all of these."""
    cluster = Cluster(installation, "server", 5432, f"krl.lease = {LEASE}",
                      f"krl.server_status = '127.0.0.1:{free_port()}'")
    cluster.sql("CREATE EXTENSION krl")
    cluster.make_table("item")
    cluster.await_workers()
    reader = cluster.reader(cluster.sql("SELECT krl.servers()"))
    check_use(cluster, reader)
    check_status(cluster, reader)
    check_copy(installation, cluster)
    check_killed(cluster, reader)
    check_suspended(cluster)
    check_lost_store(cluster)
    reader.end()
    check_end(cluster)
