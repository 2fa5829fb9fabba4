"""A copy of PostgreSQL in which the extension is installed, clusters of it, and servers of krl."""
import os
import shutil
import signal
import socket
import subprocess
from contextlib import suppress
from pathlib import Path

from checks.processes import CLUSTER_MARK, Failed, Reader, Session, children_of, expect, is_running, stop_process, \
    wait_until

# How long the servers may take to start, in seconds.
START = 300
# A reader keeps its lease on a busy machine too, and some checks wait until one ends.
LEASE = "5s"
SETTINGS = """
listen_addresses = ''
unix_socket_directories = '{folder}'
port = {port}
shared_preload_libraries = 'krl'
max_prepared_transactions = 10
max_worker_processes = 16
wal_level = logical
fsync = off
wal_writer_delay = 10s
krl.stripes = 1024
krl.timeout = 60s
"""


def run(*words, **how):
    """Runs a command that has to succeed, and returns what it prints."""
    words = [str(word) for word in words]
    how = {"stdin": subprocess.DEVNULL, "stdout": subprocess.PIPE, "stderr": subprocess.STDOUT, "text": True, **how}
    ran = subprocess.run(words, errors="replace", **how)
    if ran.returncode != 0:
        raise Failed(f"{' '.join(words)} failed:\n{ran.stdout}")
    return ran.stdout.strip()


class Installation:
    """A copy of PostgreSQL with the extension, in a folder of its own."""

    def __init__(self, given, top, folder):
        self.given, self.top, self.folder = given, top, folder
        self.root = folder / "installed"
        self.where = {name: Path(run(given.pg_config, f"--{name}")) for name in ("bindir", "sharedir", "pkglibdir")}
        self.source = folder / "tree/hosts/pgext"
        self.started = []

    def inside(self, name):
        """A folder of PostgreSQL, as the copy has it."""
        return self.root / self.where[name].relative_to("/")

    def program(self, name):
        """A program of the copy of PostgreSQL."""
        return self.inside("bindir") / name

    def build(self):
        """Builds the extension, unless it is given as a package, and installs it in a copy of PostgreSQL."""
        shutil.copytree(self.top / "hosts/pgext", self.source)
        # The programs find their folders from where they lie, so these are copies, and the rest are links.
        self.inside("bindir").mkdir(parents=True, exist_ok=True)
        run("cp", "-a", f"{self.where['bindir']}/.", self.inside("bindir"))
        for name in ("sharedir", "pkglibdir"):
            self.inside(name).mkdir(parents=True, exist_ok=True)
            run("cp", "-a", "-s", "-n", f"{self.where[name]}/.", self.inside(name))
        if self.given.package:
            run("dpkg-deb", "-x", self.top / self.given.package.name, self.root)
        else:
            self.make()

    def copy(self, other):
        """Takes what another installation has built."""
        run("cp", "-a", other.folder / "tree", other.root, self.folder)

    def make(self, *edits):
        """Makes edits, and builds and installs what they have changed."""
        for edit in edits:
            run(self.top / "tests/edit", edit, self.folder / "tree")
        words = [f"PG_CONFIG={self.given.pg_config}", f"KRL_INCLUDE={self.top / 'hosts/capi/include'}"]
        words += [f"KRL_CLIENT={self.top / 'bin'}", f"KRL_SERVER={self.top / 'bin/krl-server'}", "with_llvm=no"]
        run("make", "-C", self.source, "-j2", "all", *words)
        run("make", "-C", self.source, "install", f"DESTDIR={self.root}", *words)

    def run(self, name, *words):
        """Runs a program of PostgreSQL, which has to succeed. Its output goes to a file, which servers keep open."""
        with open(self.folder / "programs.log", "a", encoding="utf-8") as log:
            how = {"stdin": subprocess.DEVNULL, "stdout": log, "stderr": log}
            words = [str(word) for word in words]
            if subprocess.run([self.program(name), *words], cwd=self.folder, **how).returncode != 0:
                shown = "\n".join(log.read_text(errors="replace")[-2000:] for log in self.folder.glob("*.log"))
                raise Failed(f"{name} failed:\n{shown}")

    def end(self):
        """Ends all that was started."""
        for it in reversed(self.started):
            with suppress(Failed):
                it.end()


def free_port():
    """A port of the loopback at which nothing listens."""
    with socket.create_server(("127.0.0.1", 0)) as listener:
        return listener.getsockname()[1]


class KrlServer:
    """A server of krl."""

    def __init__(self, installation, name="krl", lease=LEASE, status="off", environment=None):
        self.folder, self.name, self.lease, self.status = installation.folder, name, lease, status
        self.environment = {**os.environ, **(environment or {})}
        self.program = installation.top / "bin/krl-server"
        self.address = f"unix:{self.folder}/{name}.socket"
        installation.started.append(self)
        self.drop_store()
        self.start()

    def start(self):
        """Starts it. Clients wait until it listens."""
        with open(self.folder / f"{self.name}.log", "ab") as log:
            words = ["serve", "--create", "--listen", self.address, "--store", f"{self.name}.db"]
            words += ["--status", self.status, "--lease", self.lease]
            how = {"cwd": self.folder, "stdin": subprocess.DEVNULL, "stdout": log, "stderr": log}
            self.process = subprocess.Popen([self.program, *words], env=self.environment, **how)

    def stop(self):
        """Stops the process: nobody is answered."""
        stop_process(self.process.pid)

    def resume(self):
        """Lets the process continue."""
        self.process.send_signal(signal.SIGCONT)

    def end(self):
        """Kills it."""
        self.process.kill()
        self.process.wait()

    def drop_store(self):
        """Removes its store, while it does not run."""
        for file in self.folder.glob(f"{self.name}.db*"):
            file.unlink()


class Cluster:
    """A cluster of PostgreSQL, with a database for the checks."""

    def __init__(self, installation, name, port, *settings, copy_of=None):
        self.installation, self.port = installation, port
        self.folder, self.data = installation.folder, installation.folder / name
        self.log = installation.folder / f"{name}.log"
        if copy_of:
            words = ["-h", self.folder, "-p", copy_of.port, "-U", "postgres", "-R", "--checkpoint=fast", "--no-sync"]
            installation.run("pg_basebackup", "-D", self.data, *words)
        else:
            words = ["-U", "postgres", "-A", "trust", "--locale=C", "--encoding=UTF8", "-N"]
            installation.run("initdb", "-D", self.data, *words)
        with open(self.data / "postgresql.conf", "a", encoding="utf-8") as file:
            file.write(SETTINGS.format(folder=self.folder, port=port))
            file.write("".join(f"{setting}\n" for setting in settings))
        installation.started.append(self)
        self.start()
        if not copy_of:
            self.sql("CREATE DATABASE checks", database="postgres")

    def control(self, *words):
        """Runs pg_ctl."""
        self.installation.run("pg_ctl", "-D", self.data, "-l", self.log, "-w", "-t", START, *words)

    def start(self):
        """Starts it."""
        self.control("start")

    def stop(self, mode="immediate"):
        """Stops it."""
        self.control("-m", mode, "stop")

    def kill(self):
        """Kills its first process, and waits until the others have ended."""
        file = self.data / "postmaster.pid"
        first = int(file.read_text().split()[0])
        others = children_of(first)
        os.kill(first, signal.SIGKILL)
        try:
            wait_until("all processes end", lambda: not any(map(is_running, others)), seconds=40)
        finally:
            for pid in filter(is_running, others):
                os.kill(pid, signal.SIGKILL)
            # If nothing has waited for the process, PostgreSQL takes it for one that runs.
            file.unlink()
            (self.folder / f".s.PGSQL.{self.port}.lock").unlink()

    def end(self):
        """Stops it, if it runs."""
        if (self.data / "postmaster.pid").exists():
            self.stop()

    def psql(self, database="checks"):
        """The words that run psql in a database."""
        where = ["-h", self.folder, "-p", self.port, "-U", "postgres", "-d", database]
        return [self.installation.program("psql"), "-X", "-q", "-A", "-t", *where]

    def sql(self, *statements, database="checks"):
        """Runs statements that have to succeed, each in a transaction, and returns what they print."""
        words = [word for statement in statements for word in ("-c", statement)]
        return run(*self.psql(database), "-v", "ON_ERROR_STOP=1", *words, cwd=self.folder)

    def session(self):
        """A session in the database of the checks."""
        return Session(self.psql())

    def reader(self, servers, number=0, *words):
        """A client of krl, which is ended with the cluster."""
        lock_file = self.folder / f"reader-{self.port}-{number}.lock"
        reader = Reader(self.installation.top, servers, number, lock_file, *words)
        self.installation.started.append(reader)
        return reader

    def await_workers(self):
        """Waits until each worker has joined krl's server, and the cluster's mark has the nonce of this start."""
        ready = "SELECT bool_and(is_ready) AND krl.nonce() <> 0 FROM krl.workers"
        wait_until("the workers are ready", lambda: self.sql(ready) == "t")

    def workers(self):
        """The processes of the workers."""
        return [int(pid) for pid in self.sql("SELECT pid FROM krl.workers WHERE pid IS NOT NULL").split()]

    def make_table(self, name, stripes=64):
        """Makes a table of 256 rows with a number each, and caches it."""
        self.sql(f"CREATE TABLE {name} (id bigint PRIMARY KEY, n bigint NOT NULL)",
                 f"INSERT INTO {name} SELECT id, 0 FROM generate_series(0, 255) AS id",
                 f"SELECT krl.cache('{name}', stripes => {stripes})")

    def keys(self, table, *stripes):
        """The keys of krl by which a reader keeps rows of these stripes."""
        mark = int(self.sql(f"SELECT mark FROM krl.cached WHERE relation = '{table}'::regclass"))
        return [CLUSTER_MARK, mark, *(mark + 1 + stripe for stripe in stripes)]

    def quiet(self, table, *stripes):
        """Whether a reader that holds all that it needs may keep rows of these stripes."""
        wanted = f"krl.nonce(), relation, mark, '{{{','.join(map(str, stripes))}}}'"
        return self.sql(f"SELECT krl.quiet({wanted}) FROM krl.cached WHERE relation = '{table}'::regclass") == "t"

    def keep(self, reader, table, *stripes):
        """Has a reader keep rows of these stripes. Returns the keys that it holds then."""
        keys = self.keys(table, *stripes)
        expect("what the reader holds", reader.hold(keys), keys)
        expect("whether the reader may keep rows", self.quiet(table, *stripes), True)
        return keys

    def await_commit(self, session):
        """Waits until the session waits for krl."""
        waits = f"SELECT count(*) FROM pg_stat_activity WHERE pid = {session.pid} AND wait_event_type = 'Extension'"
        wait_until("the session waits for krl", lambda: self.sql(waits) == "1")

    def is_busy(self, session):
        """Whether the session still runs a statement."""
        return self.sql(f"SELECT state FROM pg_stat_activity WHERE pid = {session.pid}") == "active"


def expect_refused(what, printed):
    """Fails unless a commit was refused since its rows were not taken back."""
    if "could not take the changed rows back from the caches" not in printed:
        raise Failed(f"{what}: it was not refused: {printed!r}")
