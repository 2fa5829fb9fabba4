#!/usr/bin/env python3
"""A reader or a writer of the drive in `hosts/drive`, which does what those of `nodes.rs` do.

    drive_client.py reader|writer NUMBER SERVERS FOLDER

It notes what it reads and writes in FOLDER/client-NUMBER.log, in the lines of `log.rs`, and ends
when there is a file FOLDER/end. The drive kills it, and compares all notes.
"""

from __future__ import annotations

import os
import sys
import threading
import time
from collections.abc import Callable
from itertools import count, cycle
from pathlib import Path
from typing import Protocol

sys.path.insert(0, str(Path(__file__).resolve().parent.parent))

import krl  # noqa: E402

WRITERS = (1, 3)
KEYS = 10
STEP = 10
TIMEOUT = 3.0

UNANSWERED = (krl.TimedOut, krl.LeaseEnded)

Keys = tuple[int, int]


def range_of(writer: int) -> Keys:
    """The keys of a writer lie in this range, and nobody else writes there."""
    return 1000 * writer, 1000 * writer + KEYS * STEP + 1


def still_range_of(writer: int) -> Keys:
    """In this range it writes once, so that readers keep it while servers die."""
    start, stop = range_of(writer)
    return start + 10_000, stop + 10_000


def number_of(value: bytes) -> int:
    return int.from_bytes(value, "big")


class Log:
    """A log that is open at its end. Several threads may write to it."""

    def __init__(self, folder: Path, number: int) -> None:
        path = folder / f"client-{number}.log"
        is_torn = path.exists() and path.read_bytes()[-1:] not in (b"", b"\n")
        self._file = open(path, "ab", buffering=0)
        if is_torn:
            self._file.write(b" torn\n")

    def note(self, *words: int | str) -> None:
        self._file.write((" ".join(map(str, words)) + "\n").encode())

    def note_read(self, begun: int, keys: Keys, rows: list[krl.Row]) -> None:
        numbers = [word for row in rows for word in (row.key, number_of(row.value))]
        self.note("R", begun, time.time_ns(), *keys, *numbers)


def tls_of(number: int, servers: str) -> krl.Tls | None:
    """What the client shows, if the servers are at addresses of TLS: see `certificates.rs`."""
    if "tls:" not in servers:
        return None
    own = Path(os.environ["KRL_CERTIFICATES"]) / f"client-{number}"
    return krl.Tls(own.with_name("authority.crt"), f"{own}.crt", f"{own}.key")


class DriveClient(Protocol):
    """What a node needs of its client."""

    def read(self, start: int, stop: int) -> list[krl.Row]: ...
    def cached(self, start: int, stop: int) -> list[krl.Row] | None: ...
    def insert(self, key: int, value: bytes) -> krl.Outcome: ...
    def put(self, key: int, value: bytes) -> krl.Outcome: ...
    def delete(self, key: int) -> krl.Outcome: ...
    def leave(self) -> None: ...


def joined(number: int, servers: str, lock_file: Path) -> DriveClient:
    """A client of the drive."""
    # A server that recovers answers late, and while none runs the client tries again.
    end = time.monotonic() + 5 * TIMEOUT
    while True:
        try:
            client = krl.join(servers, number, lock_file, 5 * TIMEOUT, tls=tls_of(number, servers))
        except krl.JoinError as error:
            if not isinstance(error.__cause__, krl.NothingListens) or time.monotonic() >= end:
                raise
        else:
            client.timeout = TIMEOUT
            return client


class Node:
    """A process of the drive."""

    def __init__(self, number: int, folder: Path, client: DriveClient) -> None:
        self.number = number
        self._end = folder / "end"
        self.client = client
        self.log = Log(folder, number)

    def runs(self) -> bool:
        return not self._end.exists()

    def read_again(self, read: Callable[[int, int], list[krl.Row] | None]) -> None:
        (first, second), (third, fourth) = (
            tuple(map(of, WRITERS)) for of in (range_of, still_range_of)
        )
        # One callback takes a whole range from the cache. Single keys stay there.
        one, other = ((start + STEP, start + STEP + 1) for start, _ in (first, second))
        for keys in cycle([(first[0], second[1]), one, first, third, other, second, fourth]):
            if not self.runs():
                return
            begun = time.time_ns()
            rows = read(*keys)
            if rows is not None:
                self.log.note_read(begun, keys, rows)
            time.sleep(0.001)

    def read(self, start: int, stop: int) -> list[krl.Row] | None:
        try:
            return self.client.read(start, stop)
        except UNANSWERED:
            return None

    def fill(self) -> None:
        """Inserts the rows of the still range that are not there. If no answer comes, another turn
        of this number does it."""
        start, stop = still_range_of(self.number)
        rows = self.read(start, stop)
        there = None if rows is None else {row.key for row in rows}
        for key in range(start + STEP, stop, STEP):
            if there is not None and key not in there:
                self.insert(key)

    def write_once(self, key: int, is_delete: bool) -> None:
        now = time.time_ns()
        if is_delete:
            self.log.note("B", now, key, "-")
            self._answered(key, lambda: self.client.delete(key))
            return
        self.log.note("B", now, key, now)
        value = now.to_bytes(8, "big")
        if self._answered(key, lambda: self.client.put(key, value)) is krl.Outcome.ABSENT:
            self.insert(key)

    def insert(self, key: int) -> None:
        now = time.time_ns()
        self.log.note("B", now, key, now)
        self._answered(key, lambda: self.client.insert(key, now.to_bytes(8, "big")))

    def _answered(self, key: int, write: Callable[[], krl.Outcome]) -> krl.Outcome | None:
        """A write that is not answered may have changed the table, or may still do so."""
        try:
            outcome = write()
        except UNANSWERED:
            return None
        self.log.note("A", time.time_ns(), key, int(outcome is krl.Outcome.APPLIED))
        return outcome

    def read_own(self, key: int) -> None:
        begun = time.time_ns()
        rows = self.client.cached(key, key + 1)
        if rows is not None:
            self.log.note_read(begun, (key, key + 1), rows)


def reader(node: Node) -> None:
    """Reads every writer's ranges again and again, in two threads: one reads only from the cache,
    the other asks the server for what the cache lacks."""
    faults: list[BaseException] = []

    def read_cached() -> None:
        try:
            node.read_again(node.client.cached)
        except BaseException as fault:
            faults.append(fault)

    cached = threading.Thread(target=read_cached)
    cached.start()
    node.read_again(node.read)
    cached.join()
    if faults:
        raise faults[0]


def writer(node: Node) -> None:
    """Writes its keys, one after the other: an insert if there is no entry, now and then a delete,
    else a put. It reads the key from its cache then."""
    node.fill()
    start, _ = range_of(node.number)
    for turn in count():
        if not node.runs():
            return
        key = start + STEP * (1 + turn % KEYS)
        node.write_once(key, turn % 7 == 0)
        node.read_own(key)


def main(join: Callable[[int, str, Path], DriveClient]) -> None:
    """Does what the words of the program ask, by clients that join so."""
    role, text, servers, folder = sys.argv[1:]
    number, place = int(text), Path(folder)
    node = Node(number, place, join(number, servers, place / f"client-{number}.lock"))
    {"reader": reader, "writer": writer}[role](node)
    node.client.leave()


if __name__ == "__main__":
    main(joined)
