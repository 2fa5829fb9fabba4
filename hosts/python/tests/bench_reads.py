#!/usr/bin/env python3
"""Measures cached reads: the middle one of many batches, in microseconds.

    bench_reads.py SERVERS LOCK_FILE      as client 0, in a table whose first hundred keys have rows
"""

from __future__ import annotations

import sys
import time
from collections.abc import Callable
from pathlib import Path

sys.path.insert(0, str(Path(__file__).resolve().parent.parent))

import krl  # noqa: E402

BATCHES = 61


def middle(calls: int, call: Callable[[], object]) -> float:
    """The time of a call, from the middle one of the batches."""
    times = []
    for _ in range(BATCHES):
        began = time.perf_counter()
        for _ in range(calls):
            call()
        times.append((time.perf_counter() - began) / calls)
    return 1e6 * sorted(times)[BATCHES // 2]


def main() -> None:
    servers, lock_file = sys.argv[1:]
    with krl.join(servers, 0, lock_file) as client:
        for key in range(100):
            client.insert(key, str(key).encode())
        # Only what was written is held.
        client.forget()
        client.read(0, 100)
        for rows, calls in ((1, 2000), (10, 1000), (100, 300)):
            print(f"cached read, rows: {rows}: {middle(calls, lambda: client.cached(0, rows)):.2f}")
        print(f"a call that waits for nothing: {middle(200, lambda: client.forget(0, 0)):.2f}")


if __name__ == "__main__":
    main()
