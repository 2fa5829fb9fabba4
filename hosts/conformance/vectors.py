#!/usr/bin/env python3
"""Makes `vectors.jsonl`, or compares it, by the decoders of the library.

    vectors.py make         writes it again
    vectors.py compare      fails if it is not what would be written

Each line is a JSON value. `to` is who reads the bytes, `server` or `client`. If they are a
message, `message` has it, and its encoding is these bytes again; otherwise `fault` has the first fault
from the left, by the names of `docs/WIRE.md`. The library decides what is a message, and which fault is
the first: its decoders are proved. `KRL_SHARED_LIBRARY` names its file, `libkrl.so` by default.
"""

from __future__ import annotations

import ctypes
import functools
import json
import os
import re
import sys
from collections.abc import Iterator
from pathlib import Path
from typing import Any

import messages as coder
from messages import encode

FILE = Path(__file__).with_name("vectors.jsonl")
PAGE = Path(__file__).parents[2] / "docs/WIRE.md"

DONE, BAD_MESSAGE = 0, 8
"""The codes of `krl.h` that a decoder answers."""

FAULTS = "Short Version Kind Span Mode Part Outcome Flag Length Count Order Trailing".split()

MAX = (1 << 64) - 1
END, TOP = (1 << 63) - 1, 1 << 63

HEAD = {"client": 3, "incarnation": 2}
ASKED = {"epoch": 1, "seen": 4}
PUSHED = {"epoch": 1, "push": 4}
HELD = {"span": [0, 11], "mode": "RangeS-S", "value": "cafe"}


def message(kind: str, **fields: Any) -> dict[str, Any]:
    """A message of client 3 in its incarnation 2."""
    return {"kind": kind, **HEAD, **fields}


def messages() -> Iterator[dict[str, Any]]:
    """Messages of each kind: those of `docs/WIRE.md`, each tag, and each field at its limits."""
    yield from (message("Hello"), message("Bye"))
    yield from (message("Ack", **ASKED), message("Epoch", epoch=1))
    yield {"kind": "Hello", "client": MAX, "incarnation": MAX}
    yield from reports()
    for mode in coder.MODES:
        yield message("Lock", **ASKED, request=5, point=10, hi=258, mode=mode)
    yield message("Lock", epoch=MAX, seen=MAX, request=MAX, point=MAX, hi=MAX, mode="N")
    for value in ("", "cafe", "0000000000000005", "ab" * 32):
        yield message("Insert", **ASKED, number=6, key=10, value=value)
        yield message("Put", **ASKED, number=7, key=10, value=value)
        yield message("TakeInsert", **ASKED, number=6, key=10, value=value)
        yield message("TakePut", **ASKED, number=7, key=10, value=value)
    yield message("Delete", **ASKED, number=8, key=72623859790382856)
    yield message("TakeDelete", **ASKED, number=8, key=72623859790382856)
    for span in ([0, 11], [END, TOP], [0, TOP]):
        yield message("Release", **ASKED, span=span, mode="RangeI-S")
        yield message("Callback", epoch=1, span=span, mode="RangeI-U")
    yield message("Absent", **PUSHED, request=5, point=10)
    yield from grants()
    for outcome in coder.OUTCOMES:
        held = {"span": [11, TOP], "mode": "RangeI-N", "value": None}
        yield message("Answer", **PUSHED, number=6, outcome=outcome, holding=held)


def reports() -> Iterator[dict[str, Any]]:
    """Reports: none, some, and each part. They need not ascend."""
    yield message("Report", epoch=1, ranges=[], keys=[])
    yield message("Report", epoch=1, ranges=[[[0, 11], "I"]], keys=[[10, "U"], [20, "X"]])
    ranges = [[[5, 9], part] for part in coder.RANGE_PARTS]
    yield message("Report", epoch=1, ranges=ranges, keys=[[7, part] for part in coder.KEY_PARTS])


def grants() -> Iterator[dict[str, Any]]:
    """Grants of one to nine holdings, and the longest one: 128 holdings with the longest values."""
    holdings = [HELD]
    for place in range(9):
        yield message("Grant", **PUSHED, request=5, holdings=list(holdings))
        span = [11 + 10 * place, 21 + 10 * place]
        holdings.append({"span": span, "mode": "X", "value": None})
    value = bytes(range(32)).hex()
    spans = [[10 * place, 10 * place + 10] for place in range(128)]
    longest = [{"span": span, "mode": "RangeS-S", "value": value} for span in spans]
    yield message("Grant", **PUSHED, request=5, holdings=longest)


def faulty() -> Iterator[tuple[str, bytes]]:
    """Strings that are not messages, with their readers."""
    lock = encode(message("Lock", **ASKED, request=5, point=10, hi=258, mode="S"))
    holdings = [HELD, {**HELD, "span": [11, 12]}]
    grant = encode(message("Grant", **PUSHED, request=5, holdings=holdings))
    release = encode(message("Release", **ASKED, span=[0, 11], mode="N"))
    insert = encode(message("Insert", **ASKED, number=6, key=10, value="cafe"))
    for bytes_, to in ((lock, "server"), (grant, "client")):
        for end in (0, 1, 2, 17, 18, 40, len(bytes_) - 1):
            yield to, bytes_[:end]
        yield to, bytes_ + b"\0"
        yield to, b"\0" + bytes_[1:]
        yield to, b"\2" + bytes_[1:]
        yield ("client" if to == "server" else "server"), bytes_
    yield "server", lock[:1] + b"\x0c" + lock[2:]
    yield "server", lock[:-1] + b"\x0d"
    for span in ([11, 11], [11, 10], [0, TOP + 1]):
        spelled = b"".join(number.to_bytes(8, "little") for number in span)
        yield "server", release[:34] + spelled + release[50:]
    yield "server", insert[:50] + b"\x21" + bytes(33)
    yield from (("server", changed) for changed in faulty_reports())
    for count in (0, 129):
        yield "client", grant[:42] + bytes([count]) + grant[43:]
    yield "client", grant[:60] + b"\2" + grant[61:]
    last = {**HELD, "span": [10, 12]}
    yield "client", encode(message("Grant", **PUSHED, request=5, holdings=[HELD, last]))
    answer = message("Answer", **PUSHED, number=6, outcome="Full", holding=HELD)
    yield "client", encode(answer)[:42] + b"\5" + encode(answer)[43:]


def faulty_reports() -> Iterator[bytes]:
    """Reports with an invalid part, and with counts that promise more than there is."""
    report = encode(message("Report", epoch=1, ranges=[[[0, 11], "I"]], keys=[[10, "U"]]))
    yield report[:46] + b"\4" + report[47:]
    yield report[:-1] + b"\4"
    yield report[:26] + b"\2" + report[27:]
    yield report[:26] + b"\xff\xff\xff\xff" + report[30:]


class Reply(ctypes.Structure):
    """A `krl_reply`."""

    _fields_ = [("code", ctypes.c_uint32), ("detail", ctypes.c_uint64)]
    code: int
    detail: int


@functools.cache
def decoder(to: str) -> Any:
    """The library's decoder of messages to the server, or to the client."""
    respell = ctypes.CDLL(os.environ.get("KRL_SHARED_LIBRARY", "libkrl.so.0"))[f"krl_respell_to_{to}"]
    respell.argtypes = [ctypes.c_char_p, ctypes.c_size_t, ctypes.c_char_p, ctypes.c_size_t]
    respell.restype = Reply
    return respell


def fault_of(to: str, message: bytes) -> str | None:
    """The first fault of the bytes, or `None` if they are a message. The library decides it."""
    room = ctypes.create_string_buffer(len(message))
    reply = decoder(to)(message, len(message), room, len(message))
    if reply.code == BAD_MESSAGE:
        return FAULTS[reply.detail]
    if reply.code != DONE or room.raw != message:
        sys.exit(f"vectors: {message.hex()}: the library answers {reply.code}")
    return None


def check_end(to: str, message: bytes) -> None:
    """Ends with a sentence if a front of the message, or the message with a byte more, has another fault."""
    for end in range(len(message)):
        if fault_of(to, message[:end]) != "Short":
            sys.exit(f"vectors: the library does not find {message[:end].hex()} too short")
    if fault_of(to, message + b"\0") != "Trailing":
        sys.exit(f"vectors: the library finds no byte too many in {message.hex()}00")


def lines() -> Iterator[str]:
    """The lines of the file."""
    for said in messages():
        to = "server" if coder.is_to_server(said["kind"]) else "client"
        if fault_of(to, encode(said)) is not None:
            sys.exit(f"vectors: the library refuses {said}")
        check_end(to, encode(said))
        yield line(to, encode(said), message=said)
    for to, string in faulty():
        fault = fault_of(to, string)
        if fault is None:
            sys.exit(f"vectors: the library takes {string.hex()} for a message to the {to}")
        yield line(to, string, fault=fault)


def line(to: str, string: bytes, **more: Any) -> str:
    """A line of the file."""
    return json.dumps({"to": to, "bytes": string.hex(), **more}) + "\n"


def examples() -> list[str]:
    """The examples of `docs/WIRE.md`, in hexadecimal digits. The first line of each begins with the version."""
    found: list[str] = []
    for digits in re.findall("(?m)^ {8}([0-9a-f ]+)$", PAGE.read_text()):
        if digits.startswith("01 "):
            found.append("")
        found[-1] += digits.replace(" ", "")
    return found


def compare() -> None:
    """Ends with a sentence if the file is not what it should be."""
    stored = FILE.read_text().splitlines(keepends=True)
    for place, (old, new) in enumerate(zip(stored, lines(), strict=True), 1):
        if old != new:
            sys.exit(f"vectors: line {place} has to be {new}")
        said = json.loads(old).get("message")
        if said is not None and coder.decode(bytes.fromhex(json.loads(old)["bytes"])) != said:
            sys.exit(f"vectors: line {place}: messages.py decodes something else")
    if missing := set(examples()) - {json.loads(old)["bytes"] for old in stored}:
        sys.exit(f"vectors: no line has the examples {missing} of docs/WIRE.md")
    found = {json.loads(old)["fault"] for old in stored if "fault" in json.loads(old)}
    if missing := set(FAULTS) - found:
        sys.exit(f"vectors: no line has the faults {missing}")
    print(f"vectors: {len(stored)} lines are as they should be")


if __name__ == "__main__":
    if sys.argv[1:] == ["make"]:
        FILE.write_text("".join(lines()))
    elif sys.argv[1:] == ["compare"]:
        compare()
    else:
        sys.exit(__doc__)
