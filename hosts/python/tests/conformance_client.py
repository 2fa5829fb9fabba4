#!/usr/bin/env python3
"""The client for Python, as `hosts/conformance/README.md` wants a client.

    conformance_client.py ADDRESS NUMBER LOCK_FILE SECONDS
"""

from __future__ import annotations

import json
import sys
from collections.abc import Callable
from pathlib import Path
from typing import Any

sys.path.insert(0, str(Path(__file__).resolve().parent.parent))

import krl  # noqa: E402


def rows_of(rows: list[krl.Row] | None) -> dict[str, Any]:
    return {"rows": None if rows is None else [[row.key, row.value.hex()] for row in rows]}


class Answering:
    """Obeys commands, a word at a time."""

    def __init__(self, client: krl.Client) -> None:
        self._client = client
        self._pins: list[krl.Pin] = []

    def read(self, start: int, stop: int) -> dict[str, Any]:
        return rows_of(self._client.read(start, stop))

    def cached(self, start: int, stop: int) -> dict[str, Any]:
        return rows_of(self._client.cached(start, stop))

    def insert(self, key: int, value: str) -> dict[str, Any]:
        return self._outcome(self._client.insert(key, bytes.fromhex(value)))

    def put(self, key: int, value: str) -> dict[str, Any]:
        return self._outcome(self._client.put(key, bytes.fromhex(value)))

    def delete(self, key: int) -> dict[str, Any]:
        return self._outcome(self._client.delete(key))

    @staticmethod
    def _outcome(outcome: krl.Outcome) -> dict[str, Any]:
        return {"outcome": outcome.name.capitalize()}

    def forget(self, start: int, stop: int) -> dict[str, Any]:
        self._client.forget(start, stop)
        return {}

    def pin(self, start: int, stop: int) -> dict[str, Any]:
        self._pins.append(self._client.pin(start, stop))
        return {}

    def unpin(self) -> dict[str, Any]:
        self._pins.pop().free()
        return {}

    def leave(self) -> dict[str, Any]:
        self._client.leave()
        return {}


def answer(call: Callable[..., dict[str, Any]], *words: Any) -> None:
    try:
        answered = call(*words)
    except krl.Error as error:
        answered = {"error": type(error).__name__}
    print(json.dumps(answered), flush=True)


def main() -> None:
    address, number, lock_file, seconds = sys.argv[1:]
    made: list[Answering] = []

    def join() -> dict[str, Any]:
        client = krl.join(address, int(number), lock_file, float(seconds))
        made.append(Answering(client))
        return {"epoch": client.epoch()}

    answer(join)
    for line in sys.stdin:
        name, *words = json.loads(line)
        answer(getattr(made[0], name), *words)


if __name__ == "__main__":
    main()
