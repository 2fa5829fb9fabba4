#!/usr/bin/env python3
"""A reader of the drive of a cached table, in Python, which does what reader.rs does.

    reader.py NAME DATABASE FOLDER

It notes what it reads in FOLDER/notes-NAME-THREAD, in the lines of notes.rs, and in FOLDER/notes-NAME
what all threads have counted, and ends when there is a file FOLDER/end. A read that fails for another
reason than the database ends it with an error.
"""
import random
import sys
import threading
import time
from concurrent.futures import ThreadPoolExecutor
from pathlib import Path

import krl.cache
from krl.cache import MISS

# As mod cache and reader.rs have them. Times are in seconds.
KEYS, MOST_KEYS, THREADS = 40, 6, 2
MEMORY, TIMEOUT = 1 << 13, 5.0
BURST, PAUSE, AWAY, COUNTS = 0.03, 0.0001, 0.02, 0.1

UNANSWERED = (krl.cache.DatabaseError, krl.cache.SystemRefused)


class Notes:
    """A new file of notes. Each line is one write, so a process that is killed leaves whole lines."""

    def __init__(self, folder, thread):
        self._file = open(folder / f"notes-{thread}", "xb", buffering=0)

    def note(self, *words):
        self._file.write((" ".join(map(str, words)) + "\n").encode())


class Way:
    """How a thread reads some keys, from the first on below the last: from memory only, or all rows."""

    def __init__(self, table, keys, is_cached_first):
        self.table, self.keys, self.is_cached_first = table, keys, is_cached_first

    def rows(self):
        """The keys and tokens of the rows."""
        rows = self.cached() if self.is_cached_first else MISS
        rows = self.read() if rows is MISS else rows
        return [(row["id"], row["token"]) for row in rows if row is not None]


class One(Way):
    def __init__(self, table, keys, is_cached_first):
        super().__init__(table, keys[:1], is_cached_first)

    def cached(self):
        row = self.table.cached_get(self.keys[0])
        return row if row is MISS else [row]

    def read(self):
        return [self.table.get(self.keys[0])]


class Several(Way):
    def cached(self):
        rows = self.table.cached_get_many(reversed(self.keys))
        return rows if rows is MISS else rows[::-1]

    def read(self):
        return self.table.get_many(reversed(self.keys))[::-1]


class Range(Way):
    def cached(self):
        return self.table.cached_range(self.keys.start, self.keys.stop)

    def read(self):
        return self.table.range(self.keys.start, self.keys.stop)


class Thread:
    """A thread that reads, and what it has counted."""

    def __init__(self, table, notes):
        self.table, self.notes = table, notes
        self.reads = self.failed = 0

    def read_on(self, is_over):
        while not is_over.is_set():
            start = random.randrange(KEYS)
            keys = range(start, min(KEYS, start + 1 + random.randrange(MOST_KEYS)))
            way = random.choice((One, Several, Range))
            self.read_burst(way(self.table, keys, random.random() < 0.5))

    def read_burst(self, way):
        """Of reads after each other that show the same rows the first and the last are noted."""
        end = time.monotonic() + BURST
        first = last = None
        while time.monotonic() < end:
            begun = time.time_ns()
            try:
                rows = way.rows()
            except UNANSWERED:
                self.failed += 1
                time.sleep(AWAY)
                break
            read = (begun, time.time_ns(), rows)
            self.reads += 1
            if first is not None and first[2] == rows:
                last = read
            else:
                self.note(way, last)
                self.note(way, read)
                first, last = read, None
            time.sleep(PAUSE)
        self.note(way, last)

    def note(self, way, read):
        if read is not None:
            begun, ended, rows = read
            words = [word for row in rows for word in row]
            self.notes.note("R", begun, ended, way.keys.start, way.keys.stop, *words)


def opened(cache, end_file):
    """The table, once the database answers; none if the drive ends before that."""
    while not end_file.exists():
        try:
            return cache.table("item")
        except krl.cache.CacheError:
            time.sleep(AWAY)
    return None


def count_on(table, threads, notes, end_file):
    """Notes what all threads have counted, until the drive ends."""
    while not end_file.exists():
        time.sleep(COUNTS)
        counted = table.statistics()
        reads, failed = sum(it.reads for it in threads), sum(it.failed for it in threads)
        notes.note("C", reads, failed, counted.hits, counted.misses)


def read_until_the_end(table, name, folder, end_file):
    threads = [Thread(table, Notes(folder, f"{name}-{place}")) for place in range(THREADS)]
    is_over = threading.Event()
    with ThreadPoolExecutor(THREADS) as pool:
        running = [pool.submit(thread.read_on, is_over) for thread in threads]
        try:
            count_on(table, threads, Notes(folder, name), end_file)
        finally:
            is_over.set()
    for thread in running:
        thread.result()


def main():
    name, database, folder = sys.argv[1], sys.argv[2], Path(sys.argv[3])
    end_file = folder / "end"
    with krl.cache.Cache(database, folder / "locks", memory=MEMORY, timeout=TIMEOUT) as cache:
        if table := opened(cache, end_file):
            read_until_the_end(table, name, folder, end_file)


if __name__ == "__main__":
    main()
