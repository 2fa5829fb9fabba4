"""What a reader may keep if a stripe is taken back in the middle of its krl.quiet."""
from checks.cluster import LEASE, Cluster, KrlServer
from checks.processes import expect, wait_until

# The lock that counts.edit has krl.quiet wait for, after it has looked at the notices.
PAUSE = 7


def check(installation):
    """Builds an extension that waits there, and takes a stripe back meanwhile: the next writer may leave it."""
    installation.make(installation.source / "checks/counts.edit")
    krl = KrlServer(installation)
    cluster = Cluster(installation, "counts", 5432, f"krl.servers = '{krl.address}'", f"krl.lease = {LEASE}")
    cluster.sql("CREATE EXTENSION krl")
    cluster.make_table("item")
    cluster.await_workers()
    expect("whether rows may be kept", cluster.quiet("item", 5), True)
    gate, asking = cluster.session(), cluster.session()
    gate.run(f"SELECT pg_advisory_lock({PAUSE})")
    asking.send("SELECT krl.quiet(krl.nonce(), relation, mark, '{5}') FROM krl.cached")
    waits = "SELECT count(*) FROM pg_locks WHERE locktype = 'advisory' AND NOT granted"
    wait_until("krl.quiet waits", lambda: cluster.sql(waits) == "1")
    cluster.sql("UPDATE item SET n = n + 1 WHERE id = 5")
    gate.run(f"SELECT pg_advisory_unlock({PAUSE})")
    expect("whether rows may be kept that were taken back meanwhile", asking.result(), "f")
    gate.end()
    asking.end()
