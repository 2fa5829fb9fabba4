"""How soon a cached table is written again after PostgreSQL has ended and started."""
import os
import signal
import subprocess
import time

from checks.cluster import Cluster
from checks.processes import Failed, expect, is_running, stop_process, wait_until
from checks.server import server_of

# A commit that waits for the lease of a client takes longer than this, and one on a busy machine does not.
LEASE, LONGEST = "15s", 6


def is_up(cluster):
    """Whether PostgreSQL admits sessions."""
    how = {"stdin": subprocess.DEVNULL, "stdout": subprocess.DEVNULL, "stderr": subprocess.DEVNULL}
    return subprocess.run([str(word) for word in (*cluster.psql(), "-c", "SELECT 1")], **how).returncode == 0


def expect_soon(cluster, after):
    """Fails unless a commit of a row that a reader had kept ends soon."""
    begun = time.monotonic()
    cluster.sql("UPDATE item SET n = n + 1 WHERE id = 5")
    seconds = time.monotonic() - begun
    if seconds > LONGEST:
        raise Failed(f"a commit took {seconds:.1f} seconds after {after}, and not {LONGEST} at most")


def keep(cluster, reader):
    """Has a reader keep a row, and the workers know each other's locks."""
    cluster.await_workers()
    cluster.sql("UPDATE item SET n = n + 1 WHERE id < 20")
    cluster.keep(reader, "item", 5)


def check_crash(cluster, reader):
    """A process of PostgreSQL is killed: PostgreSQL ends the others, and starts them again."""
    keep(cluster, reader)
    session, workers = cluster.session(), cluster.workers()
    os.kill(session.pid, signal.SIGKILL)
    wait_until("the workers end", lambda: not any(map(is_running, workers)))
    wait_until("PostgreSQL has recovered", lambda: is_up(cluster))
    expect_soon(cluster, "a crash")
    session.end()


def check_ends(cluster, reader):
    """PostgreSQL ends in each other way."""
    for end, after in ((cluster.kill, "the end of its first process"), (cluster.stop, "an immediate stop"),
                       (lambda: cluster.stop("fast"), "a fast stop")):
        keep(cluster, reader)
        end()
        cluster.start()
        expect_soon(cluster, after)


def check_slow_worker(cluster, reader):
    """krl's server waits until a worker has left that is slow, and that does not join again."""
    keep(cluster, reader)
    first = int((cluster.data / "postmaster.pid").read_text(encoding="utf-8").split()[0])
    *others, slow = cluster.workers()
    server = server_of(cluster)
    cluster.sql("ALTER SYSTEM SET krl.workers = 3")
    stop_process(slow)
    cluster.control("-W", "-m", "fast", "stop")
    wait_until("the other workers leave", lambda: not any(map(is_running, others)))
    time.sleep(0.3)
    expect("whether krl's server waits for the worker", is_running(server), True)
    os.kill(slow, signal.SIGCONT)
    wait_until("PostgreSQL ends", lambda: not is_running(first))
    cluster.start()
    expect_soon(cluster, "a stop with a slow worker")


def check(installation):
    """Checks all of these, with krl's server as a worker starts it."""
    cluster = Cluster(installation, "restarts", 5432, f"krl.lease = {LEASE}")
    cluster.sql("CREATE EXTENSION krl")
    cluster.make_table("item")
    cluster.await_workers()
    reader = cluster.reader(cluster.sql("SELECT krl.servers()"))
    check_crash(cluster, reader)
    check_ends(cluster, reader)
    check_slow_worker(cluster, reader)
