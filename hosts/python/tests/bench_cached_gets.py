#!/usr/bin/env python3
"""Measures reads of one row from memory, in nanoseconds. A turn gives the middle one of many
batches, and a figure is that of the best turn.

    bench_cached_gets.py DATABASE LOCK_FOLDER     of the row 3 of the table item, as tests have it
"""

from __future__ import annotations

import sys
import time
from pathlib import Path

sys.path.insert(0, str(Path(__file__).resolve().parent.parent))

from krl.cache import MISS, Cache  # noqa: E402
from tests.bench_reads import middle  # noqa: E402

TURNS = 9


def main() -> None:
    with Cache(*sys.argv[1:]) as cache:
        items = cache.table("item")
        while items.cached_get(3) is MISS:
            items.get(3)
            time.sleep(0.001)

        def columns() -> None:
            row = items.get(3)
            assert row is not None and row["price"] == 30 and row["name"] == "item 3"

        for what, call in (("get", lambda: items.get(3)), ("get, and two columns", columns)):
            best = min(middle(2000, call) for _ in range(TURNS))
            print(f"  {what}: Python {1000 * best:.0f}")


if __name__ == "__main__":
    main()
