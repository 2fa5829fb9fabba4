"""The rows of cached tables over a store whose disk is slow."""
import time

from checks.cluster import LEASE, Cluster, KrlServer, run
from checks.processes import Failed, expect, wait_until

# The server syncs its store for each of these, which takes longer than 5 seconds for 1,024 of them.
STRIPES = 2048
TIMEOUT = "SET krl.timeout = '4s'"
# Syncs of what else the server does.
OTHERS = 100


class SlowServer(KrlServer):
    """A server of krl whose disk is slow. It counts its syncs."""

    def __init__(self, installation):
        library = installation.folder / "slow_sync.so"
        run("cc", "-shared", "-fPIC", "-o", library, installation.source / "checks/slow_sync.c", "-ldl")
        self.counted = installation.folder / "syncs"
        self.counted.touch()
        super().__init__(installation, lease=LEASE, environment={"LD_PRELOAD": library, "SYNCS": self.counted})

    def syncs(self):
        """How often it has synced its store."""
        return self.counted.stat().st_size


def check_interrupted(cluster, krl):
    """A call that is canceled has made rows, which a later call leaves as they are."""
    before = krl.syncs()
    session = cluster.session()
    session.send(f"SELECT krl.cache('item', stripes => {STRIPES})")
    wait_until("some rows are made", lambda: krl.syncs() - before > STRIPES // 4)
    begun = time.monotonic()
    cluster.sql(f"SELECT pg_cancel_backend({session.pid})")
    printed = session.result()
    expect("whether the call was canceled", "canceling statement due to user request" in printed, True)
    expect("whether it ended at once", time.monotonic() - begun < 3, True)
    expect("how many tables are cached", cluster.sql("SELECT count(*) FROM krl.cached"), "0")
    printed = session.run(TIMEOUT, f"SELECT krl.cache('item', stripes => {STRIPES})")
    if "ERROR" in printed or f"of {STRIPES + 1} rows" not in printed:
        raise Failed(f"the second call failed, or did not report how far it was: {printed}")
    expect("whether no row was made twice", krl.syncs() - before < STRIPES + OTHERS, True)
    before = krl.syncs()
    expect("what a third call prints", session.run("SELECT krl.cache('item')"), "")
    expect("whether that made no row", krl.syncs() - before < OTHERS, True)
    expect("whether rows may be kept", cluster.quiet("item", 5), True)
    session.end()


def check_stopped(cluster, krl):
    """If nothing is made any more, the call reports how far it came, and not that its time was too short."""
    session = cluster.session()
    session.run("SET krl.timeout = '2s'", "CREATE TABLE late (id bigint PRIMARY KEY)")
    before = krl.syncs()
    session.send(f"SELECT krl.cache('late', stripes => {STRIPES})")
    wait_until("some rows are made", lambda: krl.syncs() - before > STRIPES // 8)
    krl.stop()
    printed = session.result()
    for shown in ("no answer came within krl.timeout", f"of {STRIPES + 1} rows. Its server at", "Call krl.cache again"):
        expect(f"whether it prints {shown!r}: {printed}", shown in printed, True)
    krl.resume()
    session.end()


def check_other_store(cluster, krl):
    """The rows of all tables are made in another store, however long that takes."""
    cluster.stop("fast")
    krl.end()
    krl.drop_store()
    krl.start()
    cluster.start()
    cluster.sql("SELECT krl.suspend(true)", f"{TIMEOUT}; SELECT krl.resume()")
    cluster.await_workers()
    expect("whether rows may be kept", cluster.quiet("item", 5), True)


def check(installation):
    """Checks all of these."""
    krl = SlowServer(installation)
    cluster = Cluster(installation, "rows", 5432, f"krl.servers = '{krl.address}'", f"krl.lease = {LEASE}",
                      f"krl.stripes = {2 * (STRIPES + 1)}", "krl.workers = 2")
    cluster.sql("CREATE EXTENSION krl", "CREATE TABLE item (id bigint PRIMARY KEY, n bigint NOT NULL)")
    cluster.await_workers()
    check_interrupted(cluster, krl)
    check_stopped(cluster, krl)
    check_other_store(cluster, krl)
