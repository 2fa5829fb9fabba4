"""Messages as JSON values and as bytes. `docs/WIRE.md` has the table.

A JSON value of a message has its `kind`, and its other fields by the names of that table, in its
order. Numbers are integers below 2^64, without rounding. A span is `[first, end]`, bytes are
hexadecimal digits, and modes, parts and outcomes have their names.
"""

from __future__ import annotations

import struct
from collections.abc import Callable
from typing import Any, NamedTuple

MODES = (
    "N S U X RangeS-S RangeS-U RangeI-N RangeI-S RangeI-U RangeI-X RangeX-S RangeX-U RangeX-X"
).split()
RANGE_PARTS = ("N", "S", "I", "X")
KEY_PARTS = ("N", "S", "U", "X")
OUTCOMES = ("Applied", "Exists", "Absent", "NotHeld", "Full")

VERSION = 1


class Reader:
    """The bytes of a message that were not read yet."""

    def __init__(self, rest: bytes) -> None:
        self._rest = rest

    def take(self, count: int) -> bytes:
        """This many bytes.

        Raises `ValueError` if there are fewer.
        """
        if len(self._rest) < count:
            raise ValueError(f"{count} bytes are wanted, and {len(self._rest)} are left")
        taken, self._rest = self._rest[:count], self._rest[count:]
        return taken

    def end(self) -> None:
        """Raises `ValueError` unless all is read."""
        if self._rest:
            raise ValueError(f"{len(self._rest)} bytes follow the message")


class Field(NamedTuple):
    """How a field is written and read."""

    write: Callable[[Any], bytes]
    read: Callable[[Reader], Any]


def _packed(form: str) -> Field:
    size = struct.calcsize(form)
    return Field(
        lambda number: struct.pack(form, number),
        lambda reader: struct.unpack(form, reader.take(size))[0],
    )


def _named(names: list[str] | tuple[str, ...]) -> Field:
    return Field(
        lambda name: bytes([names.index(name)]), lambda reader: names[reader.take(1)[0]]
    )


NUMBER = _packed("<Q")
COUNT = _packed("<I")
TAG = _packed("<B")
MODE, RANGE_PART, KEY_PART = _named(MODES), _named(RANGE_PARTS), _named(KEY_PARTS)
OUTCOME = _named(OUTCOMES)


def _tuple(*fields: Field) -> Field:
    return Field(
        lambda items: b"".join(f.write(item) for f, item in zip(fields, items, strict=True)),
        lambda reader: [field.read(reader) for field in fields],
    )


def _list(count: Field, item: Field) -> Field:
    return Field(
        lambda items: count.write(len(items)) + b"".join(map(item.write, items)),
        lambda reader: [item.read(reader) for _ in range(count.read(reader))],
    )


SPAN = _tuple(NUMBER, NUMBER)


def _write_value(digits: str) -> bytes:
    value = bytes.fromhex(digits)
    return bytes([len(value)]) + value


VALUE = Field(_write_value, lambda reader: reader.take(reader.take(1)[0]).hex())


def _write_holding(holding: dict[str, Any]) -> bytes:
    head = SPAN.write(holding["span"]) + MODE.write(holding["mode"])
    value = holding["value"]
    return head + (b"\0" if value is None else b"\1" + VALUE.write(value))


def _read_holding(reader: Reader) -> dict[str, Any]:
    span, mode, flag = SPAN.read(reader), MODE.read(reader), TAG.read(reader)
    return {"span": span, "mode": mode, "value": VALUE.read(reader) if flag else None}


HOLDING = Field(_write_holding, _read_holding)

_HEAD = {"client": NUMBER, "incarnation": NUMBER}
_ASKED = {"epoch": NUMBER, "seen": NUMBER}
_PUSHED = {"epoch": NUMBER, "push": NUMBER}
_WRITTEN = {**_ASKED, "number": NUMBER, "key": NUMBER}

KINDS: dict[str, tuple[int, dict[str, Field]]] = {
    "Hello": (0, {}),
    "Bye": (1, {}),
    "Report": (
        2,
        {
            "epoch": NUMBER,
            "ranges": _list(COUNT, _tuple(SPAN, RANGE_PART)),
            "keys": _list(COUNT, _tuple(NUMBER, KEY_PART)),
        },
    ),
    "Lock": (3, {**_ASKED, "request": NUMBER, "point": NUMBER, "hi": NUMBER, "mode": MODE}),
    "Insert": (4, {**_WRITTEN, "value": VALUE}),
    "Put": (5, {**_WRITTEN, "value": VALUE}),
    "Delete": (6, _WRITTEN),
    "Release": (7, {**_ASKED, "span": SPAN, "mode": MODE}),
    "Ack": (8, _ASKED),
    "TakeInsert": (9, {**_WRITTEN, "value": VALUE}),
    "TakePut": (10, {**_WRITTEN, "value": VALUE}),
    "TakeDelete": (11, _WRITTEN),
    "Epoch": (16, {"epoch": NUMBER}),
    "Grant": (17, {**_PUSHED, "request": NUMBER, "holdings": _list(TAG, HOLDING)}),
    "Absent": (18, {**_PUSHED, "request": NUMBER, "point": NUMBER}),
    "Answer": (19, {**_PUSHED, "number": NUMBER, "outcome": OUTCOME, "holding": HOLDING}),
    "Callback": (20, {"epoch": NUMBER, "span": SPAN, "mode": MODE}),
}

_NAMES = {kind: name for name, (kind, _) in KINDS.items()}


def is_to_server(name: str) -> bool:
    """Whether messages of this kind go to the server."""
    return KINDS[name][0] < 16


def encode(message: dict[str, Any]) -> bytes:
    """The bytes of a message."""
    kind, fields = KINDS[message["kind"]]
    all_fields = {**_HEAD, **fields}
    body = b"".join(field.write(message[name]) for name, field in all_fields.items())
    return bytes([VERSION, kind]) + body


def decode(message: bytes) -> dict[str, Any]:
    """The JSON value of the bytes of a message.

    Raises `ValueError`, `IndexError` or `KeyError` if they are none. It does not judge: of a span
    that does not begin below its end, and the like, it has the numbers.
    """
    reader = Reader(message)
    version, kind = reader.take(2)
    if version != VERSION:
        raise ValueError(f"a message of version {version}, and not {VERSION}")
    fields = {**_HEAD, **KINDS[_NAMES[kind]][1]}
    found: dict[str, Any] = {"kind": _NAMES[kind]}
    found.update((name, field.read(reader)) for name, field in fields.items())
    reader.end()
    return found
