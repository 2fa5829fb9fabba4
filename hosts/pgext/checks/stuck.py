"""A reader that has stopped delays only commits of rows that it keeps, and one that has ended delays none."""
import signal
import time

from checks.cluster import Cluster, KrlServer, expect_refused, free_port
from checks.processes import expect, wait_until

# Longer than the check takes: what waits for the reader waits until it continues.
LEASE = "300s"
WORKERS = 4
# A commit that waits for no lease takes less, in seconds, even on a busy machine.
AT_ONCE = 4


def write_others(cluster, reader, session):
    """Writes rows that another reader keeps, which has to do as without the one that has stopped."""
    for _ in range(3):
        cluster.keep(reader, "item", 20, 21)
        expect("a write of other rows", session.run("UPDATE item SET n = n + 1 WHERE id IN (20, 21)"), "")


def expect_waiting(cluster, sessions):
    """Fails unless each session waits."""
    expect("which commits wait", [cluster.is_busy(session) for session in sessions], [True] * len(sessions))


def check_one_stripe(cluster, stopped, other):
    """Any number of commits of one stripe occupy one worker."""
    keys = cluster.keep(stopped, "item", 5)
    sessions = [cluster.session() for _ in range(WORKERS)]
    session = cluster.session()
    stopped.stop()
    for row, waiting in enumerate(sessions):
        waiting.send(f"UPDATE item SET n = n + 1 WHERE id = {5 + 64 * row}")
        cluster.await_commit(waiting)
    write_others(cluster, other, session)
    expect_waiting(cluster, sessions)
    shown = "SELECT count(*), count(*) FILTER (WHERE is_in_work) FROM krl.waiting WHERE relation = 'item'::regclass"
    wait_until("all sessions wait, and one is in work", lambda: cluster.sql(shown) == f"{WORKERS}|1", seconds=30)
    stopped.resume()
    for waiting in sessions:
        expect("a commit that has waited", waiting.result(), "")
        waiting.end()
    expect("what the reader has after that", stopped.held(keys), keys[:2])


def check_late_requests(cluster, stopped, other):
    """A worker whose client waits for a lock leaves other requests to the others, after its own has timed out too."""
    stripes = range(30, 30 + WORKERS - 1)
    cluster.keep(stopped, "item", *stripes)
    session = cluster.session()
    stopped.stop()
    session.run("SET krl.timeout = '500ms'")
    for stripe in stripes:
        expect_refused("a commit", session.run(f"UPDATE item SET n = n + 1 WHERE id = {stripe}"))
    session.run("RESET krl.timeout")
    write_others(cluster, other, session)
    stopped.resume()
    expect("a commit of a row of the reader", session.run("UPDATE item SET n = n + 1 WHERE id = 30"), "")


def check_many_stripes(cluster, stopped, other):
    """More commits than there are workers wait for a reader that has stopped, and others do not."""
    stripes = range(40, 40 + WORKERS + 2)
    cluster.keep(stopped, "item", *stripes)
    sessions = [cluster.session() for _ in stripes]
    session = cluster.session()
    stopped.stop()
    for stripe, waiting in zip(stripes, sessions):
        waiting.send(f"UPDATE item SET n = n + 1 WHERE id = {stripe}")
        cluster.await_commit(waiting)
    write_others(cluster, other, session)
    expect_waiting(cluster, sessions)
    stopped.resume()
    for waiting in sessions:
        expect("a commit that has waited", waiting.result(), "")
        waiting.end()


def check_shown(cluster, stopped, other):
    """krl.readers shows which processes are readers, and which commits wait for the one that has stopped."""
    shown = "SELECT number, pid, address LIKE 'unix:user=%', now() - connected_since < '1 hour', slots > 0, delays " \
        "FROM krl.readers ORDER BY number"
    cluster.keep(stopped, "item", 60, 61)
    cluster.keep(other, "item", 62)
    session = cluster.session()
    stopped.stop()
    session.send("UPDATE item SET n = n + 1 WHERE id IN (60, 61)")
    expected = f"0|{stopped.process.pid}|t|t|t|{{{session.pid}}}\n1|{other.process.pid}|t|t|t|{{}}"
    wait_until("both readers are shown", lambda: cluster.sql(shown) == expected, seconds=30)
    stopped.resume()
    expect("a commit that has waited", session.result(), "")
    session.end()


def check_ended(cluster, krl):
    """However the process of a reader ends, a commit of its rows does not wait for its lease."""
    for number, *words in ((signal.SIGKILL,), (signal.SIGTERM,), (signal.SIGTERM, "leaves")):
        reader = cluster.reader(krl.address, 2, *words)
        cluster.keep(reader, "item", 50)
        reader.end_by(number)
        begun = time.monotonic()
        cluster.sql("UPDATE item SET n = n + 1 WHERE id = 50")
        took = time.monotonic() - begun
        print(f"check: a commit after {number.name} {' '.join(words)}: {took:.2f} seconds", flush=True)
        expect("whether it is done at once", took < AT_ONCE, True)


def check(installation):
    """Checks all of these."""
    status = f"127.0.0.1:{free_port()}"
    krl = KrlServer(installation, lease=LEASE, status=status)
    settings = [f"krl.servers = '{krl.address}'", f"krl.lease = {LEASE}", f"krl.workers = {WORKERS}"]
    settings += [f"krl.server_status = '{status}'"]
    cluster = Cluster(installation, "stuck", 5432, *settings)
    cluster.sql("CREATE EXTENSION krl")
    cluster.make_table("item")
    cluster.await_workers()
    stopped, other = cluster.reader(krl.address, 0), cluster.reader(krl.address, 1)
    check_one_stripe(cluster, stopped, other)
    check_late_requests(cluster, stopped, other)
    check_many_stripes(cluster, stopped, other)
    check_shown(cluster, stopped, other)
    check_ended(cluster, krl)
