"""Tables that are cached in turn, by the same keys of krl, while a process reads all of them."""
import os
from pathlib import Path
from urllib.parse import quote

from checks.cluster import LEASE, Cluster
from checks.processes import PYTHON, Lines, expect, wait_until

CYCLES = 20
# There is room for one table of the default number of stripes: each cycle takes the keys of the one before.
STRIPES = 5200
TABLES = ("one", "two", "three")
KEY = 5


class TableReader(Lines):
    """A process that reads the tables by the library of readers."""

    def __init__(self, cluster):
        top = cluster.installation.top
        library = {"KRL_CACHE_LIBRARY": str(top / "bin/libkrl_cache_c.so"), "PYTHONPATH": str(top / "hosts/python")}
        database = f"postgres://postgres@{quote(str(cluster.folder), safe='')}:{cluster.port}/checks"
        folder = cluster.folder / "readers"
        folder.mkdir()
        words = [PYTHON, Path(__file__).with_name("table_reader.py"), database, folder, *TABLES]
        super().__init__(words, env={**os.environ, **library})
        cluster.installation.started.append(self)
        expect("what the reader prints first", self.read(), "ready")

    def get(self, table):
        """The number in the row, and how many keys the reader has answered from memory."""
        self.write(f"{table} {KEY}")
        return [int(word) for word in self.read().split()]

    def get_from_memory(self, table):
        """The same, as soon as the row is in memory."""
        before = self.get(table)
        return wait_until("a row is answered from memory", lambda: (now := self.get(table))[1] > before[1] and now)


def write_all(cluster, reader, number, what):
    """Writes the row in each table, and fails if the reader returns another one after that."""
    cluster.sql(*(f"UPDATE {table} SET n = {number} WHERE id = {KEY}" for table in TABLES))
    expect(f"the rows {what}", [reader.get(table)[0] for table in TABLES], [number] * len(TABLES))


def check(installation):
    """Caches the tables in turn, with other stripes each time."""
    cluster = Cluster(installation, "cycles", 5432, f"krl.lease = {LEASE}", f"krl.stripes = {STRIPES}")
    cluster.sql("CREATE EXTENSION krl")
    for table in TABLES:
        cluster.make_table(table)
    cluster.await_workers()
    reader = TableReader(cluster)
    cluster.sql("SELECT krl.uncache(relation) FROM krl.cached")
    for cycle in range(CYCLES):
        table, number = TABLES[cycle // 2 % len(TABLES)], 10 * cycle
        cluster.sql(f"SELECT krl.cache('{table}', stripes => {(4096, 4100, 4001)[cycle % 3]})")
        expect("its keys", cluster.sql("SELECT relation, mark FROM krl.cached"), f"{table}|0")
        reader.get_from_memory(table)
        write_all(cluster, reader, number + 1, f"while {table} is cached")
        reader.get_from_memory(table)
        cluster.sql(f"SELECT krl.uncache('{table}')")
        write_all(cluster, reader, number + 2, f"while {table} is no longer cached")
