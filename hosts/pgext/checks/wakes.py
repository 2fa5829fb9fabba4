"""Which worker is woken if another one finds a request just as it is about to sleep."""
import os
import signal
import time

from checks.cluster import Cluster, KrlServer
from checks.processes import expect, stop_process, wait_until

# Longer than the check takes.
LEASE = "300s"
# As long as wakes.edit has a worker wait before it sleeps, in seconds, and some more.
PAUSE = 3


def begin_request(cluster, stopped, other, late):
    """Has the first worker find a request as it is about to sleep, which it works at for as long as a reader is
    stopped. The other worker, which is woken for it, comes too late."""
    cluster.keep(stopped, "item", 5)
    cluster.keep(other, "item", 20, 21)
    time.sleep(PAUSE)
    cluster.sql("UPDATE item SET n = n + 1 WHERE id = 21")
    stop_process(late)
    stopped.stop()
    session = cluster.session()
    session.send("UPDATE item SET n = n + 1 WHERE id = 5")
    wait_until("a worker works at the request", lambda: cluster.sql("SELECT is_in_work FROM krl.waiting") == "t")
    os.kill(late, signal.SIGCONT)
    time.sleep(PAUSE)
    return session


def check(installation):
    """Builds an extension whose workers wait before they sleep, and then sleep until they are woken. While one is at
    work, the other one is woken for another request."""
    installation.make(installation.source / "checks/wakes.edit")
    krl = KrlServer(installation, lease=LEASE)
    settings = [f"krl.servers = '{krl.address}'", f"krl.lease = {LEASE}", "krl.workers = 2"]
    cluster = Cluster(installation, "wakes", 5432, *settings)
    cluster.sql("CREATE EXTENSION krl")
    cluster.make_table("item")
    cluster.await_workers()
    stopped, other = cluster.reader(krl.address, 0), cluster.reader(krl.address, 1)
    session = begin_request(cluster, stopped, other, cluster.workers()[1])
    cluster.sql("SET krl.timeout = '20s'; UPDATE item SET n = n + 1 WHERE id = 20")
    stopped.resume()
    expect("a commit that has waited", session.result(), "")
    session.end()
