#!/usr/bin/env python3
"""Plays scripts to a client, as its server, and looks at what it sends.

    play.py COMMAND -- SCRIPT..        COMMAND is the client under test, without its words

`README.md` has the words of a script, and those of a client. The status is 0 if the client has
passed each script; otherwise the last lines show at which step of which script it failed, and how.
"""

from __future__ import annotations

import json
import os
import select
import socket
import subprocess
import sys
import tempfile
import time
from collections.abc import Iterator
from pathlib import Path
from typing import Any, NoReturn

from messages import decode, encode

NUMBER = 3
PATIENCE = float(os.environ.get("KRL_PATIENCE", "30"))
"""How many seconds a step waits, and the client's calls."""

LENGTH = 8
REASONS = (
    "Version",
    "ClientNumber",
    "Incarnation",
    "Full",
    "Missing",
    "LeaseRuns",
    "Denied",
    "OtherShard",
    "FarAhead",
    "OtherStore",
)
HOST_KINDS = {
    "Hello": 16,
    "Refused": 17,
    "Mark": 18,
    "WentBack": 19,
    "Terms": 20,
    "Ended": 21,
    "Shard": 22,
}
SERVER_HELLO = bytes([0, HOST_KINDS["Hello"]])
"""How the Hello of a server begins, in each version."""
VERSION = 4
"""The version of the stream, which each Hello names from version 2 on."""
MARKS = (0, 24, 40)
"""How many bytes a mark has in the Hello of a client."""
SHARD = ("first", "end", "version")
SIGN = ("client", "incarnation", "moment", "length", "older")
NUMBERS = {"Shard": SHARD, "Terms": ("incarnation", "moment", "length"), "Ended": ("incarnation",)}
"""The numbers of eight bytes of which a frame of a server's host consists."""
AT_ANY_TIME = ("Ack", "Sign")
"""What a client may send at any time, and is passed over unless it is expected."""


class Failed(Exception):
    """The client does not do what the script expects."""


def fail(why: str) -> NoReturn:
    """Ends the script."""
    raise Failed(why)


def host_frame(said: dict[str, Any]) -> bytes:
    """A frame of a server's host."""
    head = bytes([0, HOST_KINDS[said["host"]]])
    if said["host"] in NUMBERS:
        names = NUMBERS[said["host"]]
        return head + b"".join(said[name].to_bytes(8, "little") for name in names)
    if said["host"] == "Hello":
        return head + bytes([1 if said.get("signs") else 0, said.get("version", VERSION)])
    if said["host"] == "Refused":
        # What a shard refuses has a third number.
        numbers = [said[name] for name in ("first", "second", "version") if name in said]
        reason = bytes([REASONS.index(said["reason"])])
        return head + reason + b"".join(number.to_bytes(8, "little") for number in numbers)
    return head + bytes.fromhex(said.get("mark", ""))


def read_frame(frame: bytes) -> dict[str, Any]:
    """What a client sends."""
    if frame[:2] == b"\0\0":
        if len(frame) - 3 not in MARKS:
            fail(f"the client's Hello names no version: {frame.hex()}")
        return {"host": "Hello", "mark": frame[2:-1].hex() or None, "version": frame[-1]}
    for kind, name, fields in ((1, "Sign", SIGN), (2, "Shard", SHARD)):
        if frame[:2] == bytes([0, kind]):
            numbers = (int.from_bytes(frame[at : at + 8], "little") for at in range(2, 42, 8))
            return {"host": name, **dict(zip(fields, numbers))}
    try:
        return decode(frame)
    except (ValueError, IndexError, KeyError) as error:
        fail(f"the client sends what is no message: {frame.hex()}: {error}")


def name_of(said: dict[str, Any]) -> str:
    """The name of a message or of a frame of a host."""
    return str(said.get("kind") or said.get("host"))


class Peer:
    """A connection of the client."""

    def __init__(self, stream: socket.socket) -> None:
        stream.settimeout(PATIENCE)
        self._stream = stream
        self._heard: set[bytes] = set()
        self._has_greeted = False

    def _receive(self, count: int) -> bytes:
        came = b""
        while len(came) < count:
            try:
                part = self._stream.recv(count - len(came))
            except TimeoutError:
                fail(f"the client sends nothing for {PATIENCE} seconds")
            if not part:
                raise EOFError
            came += part
        return came

    def frame(self) -> bytes:
        """The next frame."""
        length = int.from_bytes(self._receive(LENGTH), "little")
        return self._receive(length)

    def next(self, wanted: str) -> dict[str, Any]:
        """What the client sends next, and has not sent on this connection before. What it may send
        at any time is passed over unless that is wanted."""
        end = time.monotonic() + PATIENCE
        while time.monotonic() < end:
            frame = self.frame()
            said = read_frame(frame)
            is_new = frame not in self._heard
            self._heard.add(frame)
            name = name_of(said)
            if is_new and (name == wanted or name not in AT_ANY_TIME):
                return said
            if name == "Sign":
                self._grant_no_lease()
        fail(f"the client sends nothing new for {PATIENCE} seconds")

    def repeats(self) -> Iterator[dict[str, Any]]:
        """What the client repeats, for a while."""
        end = time.monotonic() + PATIENCE
        while time.monotonic() < end:
            frame = self.frame()
            if frame in self._heard:
                yield read_frame(frame)
            self._heard.add(frame)

    def _grant_no_lease(self) -> None:
        """A script that expects no Sign is that of a server without leases: a client with leases
        continues when it has heard so."""
        if not self._has_greeted:
            self.send([host_frame({"host": "Hello"})])

    def send(self, frames: list[bytes]) -> None:
        """Sends frames, all at once."""
        self._has_greeted |= any(frame.startswith(SERVER_HELLO) for frame in frames)
        framed = [len(frame).to_bytes(LENGTH, "little") + frame for frame in frames]
        self._stream.sendall(b"".join(framed))

    def send_raw(self, bytes_: bytes) -> None:
        """Sends bytes as they are."""
        self._stream.sendall(bytes_)

    def wait_for_end(self) -> None:
        """Waits until the client ends the connection."""
        try:
            while True:
                self.frame()
        except (EOFError, ConnectionError):
            pass

    def close(self) -> None:
        """Ends the connection."""
        self._stream.close()


class Play:
    """A script that is played, with the client's process."""

    def __init__(self, command: list[str], folder: str) -> None:
        self._listener = socket.create_server(("127.0.0.1", 0))
        self._listener.settimeout(PATIENCE)
        address = f"127.0.0.1:{self._listener.getsockname()[1]}"
        words = [address, str(NUMBER), str(Path(folder) / "lock"), str(PATIENCE)]
        self._client = subprocess.Popen(
            command + words, stdin=subprocess.PIPE, stdout=subprocess.PIPE, text=True
        )
        self._peer: Peer | None = None
        self._names: dict[str, Any] = {}

    def end(self) -> None:
        """Ends the client."""
        self._client.kill()
        self._client.communicate()
        if self._peer:
            self._peer.close()
        self._listener.close()

    def step(self, step: dict[str, Any]) -> None:
        """Plays a step."""
        ((word, what),) = step.items()
        try:
            getattr(self, f"_{word}")(what)
        except EOFError:
            fail("the client has ended the connection")
        except ConnectionError as error:
            fail(f"the connection has failed: {error}")

    def _connection(self, _: Any) -> None:
        if self._peer:
            self._peer.close()
        try:
            self._peer = Peer(self._listener.accept()[0])
        except TimeoutError:
            fail("the client does not connect")

    @property
    def _connected(self) -> Peer:
        return self._peer or fail("the script has no connection")

    def _expect(self, pattern: dict[str, Any]) -> None:
        said = self._connected.next(name_of(pattern))
        if "incarnation" in said and name_of(said) in ("Hello", "Sign"):
            self._names["incarnation"] = said["incarnation"]
        self._compare(pattern, said)

    def _until(self, pattern: dict[str, Any]) -> None:
        """What comes is passed over until it fits. The client may connect again meanwhile."""
        end = time.monotonic() + PATIENCE
        while time.monotonic() < end:
            try:
                said = self._connected.next(name_of(pattern))
            except (EOFError, ConnectionError):
                self._connection(True)
                continue
            if self._fits(pattern, said):
                return
        fail(f"the client does not send it in {PATIENCE} seconds")

    def _again(self, pattern: dict[str, Any]) -> None:
        if not any(self._fits(pattern, said) for said in self._connected.repeats()):
            fail(f"the client does not repeat it in {PATIENCE} seconds")

    def _compare(self, pattern: dict[str, Any], said: dict[str, Any]) -> None:
        if not self._fits(pattern, said):
            fail(f"the client sends {json.dumps(said)}")

    def _fits(self, pattern: dict[str, Any], said: dict[str, Any]) -> bool:
        if not all(key in said for key in pattern):
            return False
        return all(said[key] == self._meant(word, said[key]) for key, word in pattern.items())

    def _meant(self, word: Any, said: Any) -> Any:
        """What a word of a pattern stands for: a name that is new, for what is sent here."""
        return self._names.setdefault(word[1:], said) if is_name(word) else word

    def _send(self, frames: list[dict[str, Any]]) -> None:
        self._connected.send([self._frame(said) for said in frames])

    def _frame(self, said: dict[str, Any]) -> bytes:
        if not said:
            return b""
        if "host" in said:
            return host_frame({key: self._meant(word, None) for key, word in said.items()})
        head = {"client": NUMBER, "incarnation": "$incarnation"}
        return encode({key: self._meant(word, None) for key, word in {**head, **said}.items()})

    def _raw(self, digits: str) -> None:
        self._connected.send_raw(bytes.fromhex(digits))

    def _ended(self, _: Any) -> None:
        self._connected.wait_for_end()

    def _close(self, _: Any) -> None:
        self._connected.close()

    def _do(self, words: list[Any]) -> None:
        assert self._client.stdin
        self._client.stdin.write(json.dumps(words) + "\n")
        self._client.stdin.flush()

    def _answer(self, pattern: dict[str, Any]) -> None:
        assert self._client.stdout
        if not select.select([self._client.stdout], [], [], 2 * PATIENCE)[0]:
            fail("the client's program does not answer")
        line = self._client.stdout.readline()
        if not line:
            fail("the client's program has ended")
        answer = json.loads(line)
        # A client may have no call for its epoch.
        has_no_epoch = answer == {"epoch": None} and pattern.keys() == {"epoch"}
        if not has_no_epoch and not self._fits(pattern, answer):
            fail(f"the client's program answers {line.strip()}")

    def _greater(self, names: list[str]) -> None:
        one, other = (self._names[name[1:]] for name in names)
        if not one > other:
            fail(f"{one} is not greater than {other}")


def is_name(word: Any) -> bool:
    """Whether a word of a script is a name: it stands for what it stood for first."""
    return isinstance(word, str) and word.startswith("$")


def play(command: list[str], script: Path) -> None:
    """Plays a script to a new client. Ends the program if it fails."""
    with tempfile.TemporaryDirectory() as folder:
        playing = Play(command, folder)
        try:
            for place, line in enumerate(script.read_text().splitlines(), 1):
                if line and not line.startswith("#"):
                    play_line(playing, f"{script}:{place}: {line}", line)
        finally:
            playing.end()


def play_line(playing: Play, place: str, line: str) -> None:
    """Plays a line of a script."""
    try:
        playing.step(json.loads(line))
    except Failed as failed:
        sys.exit(f"play: {place}\n      {failed}")


def main() -> None:
    words = sys.argv[1:]
    if "--" not in words:
        sys.exit(__doc__)
    command, scripts = words[: words.index("--")], words[words.index("--") + 1 :]
    for script in scripts:
        play(command, Path(script))
    print(f"play: the client passes {len(scripts)} scripts")


if __name__ == "__main__":
    main()
