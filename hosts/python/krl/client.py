"""A client of a krl server, or of all servers of a map of shards. ``krl_client.h`` describes each
call in full. ``timeout``: how many seconds a call waits, by default that of its client or pin."""

import ctypes
import math
import os
import weakref
from collections.abc import Iterable, Iterator
from contextlib import suppress
from operator import index
from typing import Any, NamedTuple, Self

from ._library import ANSWERS, END, FOR_EVER, MISS, MISUSE, NUMBERS, OK, ROW, STATUS, TOP, WRITE
from ._library import Handle, Options, Row, RowRoom, Rows, call, library, refused, rows_in
from .errors import BadKey, BadOption, BadRange, Closed, Outcome, PinIsVoid, Refused

Numbers = int | Iterable[int]
PathLike = str | os.PathLike[str]
Seconds = float | None


class Tls(NamedTuple):
    """The PEM files for ``tls:`` addresses, and the table's name in certificates, if it has one."""
    authority: PathLike
    certificate: PathLike
    key: PathLike
    table: str | None = None


class Status(NamedTuple):
    """A ``krlc_status``. ``lease_left`` is in seconds, or ``None`` if the server has no leases."""
    shard: int
    epoch: int
    incarnation: int
    lease_left: float | None
    is_connected: bool


class Write(NamedTuple):
    """A write of ``write_all``, by the call that its class is named for."""
    key: int
    value: bytes = b""


class Insert(Write): """As ``insert``."""
class Put(Write): """As ``put``."""
class Set(Write): """As ``set``."""
class Delete(Write): """As ``delete``: it has no value."""


KINDS = (Insert, Put, Set, Delete)


def _range(start: int, stop: int) -> tuple[int, int]:
    # ctypes cuts off what a number has above 64 bits.
    if 0 <= index(start) <= index(stop) <= TOP:
        return start, stop
    raise BadRange(f"a range of keys has 0 <= start <= stop <= 2^63, not {start!r} and {stop!r}")


def _range_of(key: int) -> tuple[int, int]:
    if 0 <= index(key) < END:
        return key, key + 1
    raise BadKey(f"a key is 0 to 2^63 - 2, not {key!r}")


def _milliseconds(seconds: float) -> int:
    """At least one, since 0 stands for the default; and a year at most."""
    if not seconds >= 0:
        raise BadOption(f"a timeout is a number of seconds, 0 or more, not {seconds!r}")
    return max(1, math.ceil(min(seconds, 365 * 24 * 3600) * 1000))


class _Writer:
    """The writes of a client and of a pin."""

    _prefix, _code_if_gone = "", Closed.code
    _handle: Handle
    timeout: float
    """How many seconds a call waits that has no timeout of its own: a millisecond to a year."""

    def __enter__(self) -> Self:
        return self

    def insert(self, key: int, value: bytes, timeout: Seconds = None) -> Outcome:
        """Inserts a row. The outcome is ``APPLIED``, ``EXISTS`` or ``FULL``."""
        return self.write_all([Insert(key, value)], timeout)[0]

    def put(self, key: int, value: bytes, timeout: Seconds = None) -> Outcome:
        """Replaces the value of a row. The outcome is ``APPLIED`` or ``ABSENT``."""
        return self.write_all([Put(key, value)], timeout)[0]

    def set(self, key: int, value: bytes, timeout: Seconds = None) -> Outcome:
        """Gives a key this value, whether or not it has a row: ``APPLIED`` or ``FULL``."""
        return self.write_all([Set(key, value)], timeout)[0]

    def delete(self, key: int, timeout: Seconds = None) -> Outcome:
        """Deletes a row. The outcome is ``APPLIED`` or ``ABSENT``."""
        return self.write_all([Delete(key)], timeout)[0]

    def write_all(self, writes: Iterable[Write], timeout: Seconds = None) -> list[Outcome]:
        """Makes several writes in one call, in this order: see ``krlc_write_all``. It is not
        a transaction. An error has what became of each write in its ``outcomes``."""
        outcomes, packed = list[Outcome](), bytearray()
        for write in writes:
            if not 0 <= index(write.key) < END:
                raise BadKey(f"a key is from 0 to 2^63 - 2, not {write.key!r}")
            if type(write) not in KINDS:
                raise TypeError(f"a write is an Insert, Put, Set or Delete, not {write!r}")
            kind = KINDS.index(type(write))
            value = memoryview(write.value).tobytes()
            packed += WRITE.pack(kind, Outcome.NOT_MADE, write.key, len(value), value)
        room = (ctypes.c_char * len(packed)).from_buffer(packed)
        try:
            self._call("write_all", timeout, room, len(packed) // WRITE.size)
        except Refused as error:
            error.outcomes = outcomes
            raise
        finally:
            outcomes += (Outcome(outcome) for _, outcome, *_ in WRITE.iter_unpack(packed))
        return outcomes

    def _call(self, name: str, timeout: Seconds, *words: Any) -> int:
        milliseconds = _milliseconds(self.timeout if timeout is None else timeout)
        if (handle := self._handle).value is None:
            raise refused(self._code_if_gone)
        return call(self._prefix + name, handle, *words, milliseconds)


class Pin(_Writer):
    """A pinned range: no other client takes what this client holds of it, until ``free`` or the end
    of a ``with``. Its writes are made while the pin holds, or raise ``PinIsVoid``. ``rows`` are
    those of the range when it was pinned."""

    _prefix, _code_if_gone = "pin_", PinIsVoid.code

    def __init__(self, handle: Handle, rows: list[Row], timeout: float) -> None:
        self._handle, self.rows, self.timeout = handle, rows, timeout

    def holds(self) -> bool:
        """Whether no other client has taken anything of the range. Ask after the work."""
        code = library().pin_holds(self._handle)
        if code not in (OK, MISUSE, PinIsVoid.code):
            raise refused(code)
        return bool(code == OK)

    def free(self) -> None:
        """Ends the pin: other clients get the range that they wait for."""
        self._handle = Handle("pin_free")

    def __exit__(self, *error: object) -> None:
        self.free()


class Client(_Writer):
    """A client. Any threads may use it. It leaves at the end of a ``with``, when it is collected,
    and when the process exits. In the child of a fork its calls raise ``Forked``."""

    def __init__(self, place: str, options: Options) -> None:
        self._place, self._handle = place, Handle("free")
        call("join", ctypes.byref(options), ctypes.byref(self._handle))
        self._end = weakref.finalize(self, library().leave, self._handle, 1000, None)
        self._end.atexit = False  # The library leaves when the process ends.
        self.timeout = options.timeout_ms / 1000
        self.number: int = library().number(self._handle)

    def __repr__(self) -> str:
        return f"<krl.Client {self.number} of {self._place}>"

    def read(self, start: int = 0, stop: int = TOP, timeout: Seconds = None) -> list[Row]:
        """The rows with keys from ``start`` on below ``stop``: from the cache, with no message, if
        it has the range; otherwise the client locks what it lacks, and waits."""
        if (rows := self.cached(start, stop)) is not None:
            return rows
        self._call("read", timeout, start, stop, found := Rows())
        return found.taken()

    def get(self, key: int, timeout: Seconds = None) -> bytes | None:
        """The value of the row of this key, as ``read`` reads it, or ``None`` if there is none."""
        rows = self.read(*_range_of(key), timeout)
        return rows[0].value if rows else None

    def read_once(self, start: int = 0, stop: int = TOP, timeout: Seconds = None) -> list[Row]:
        """The rows as the server's store has them. The client takes no lock, and keeps nothing of
        them: no write waits for it later. More than 128 rows, and those of several shards, are read
        in parts, each at a moment of its own."""
        self._call("read_once", timeout, *_range(start, stop), found := Rows())
        return found.taken()

    def cached(self, start: int = 0, stop: int = TOP) -> list[Row] | None:
        """The rows if the cache has the whole range, otherwise ``None``: it waits for nobody."""
        _range(start, stop)
        if stop - start == 1 and start != END:
            code = library().cached_row(self._handle, start, row := RowRoom())
            rows = rows_in(row) if code == OK else []
        else:
            code = library().cached(self._handle, start, stop, found := Rows())
            rows = found.taken()
        if code > ANSWERS and code != MISUSE:
            raise refused(code)
        # A client that has left has nothing in its cache.
        return None if code in (MISS, MISUSE) else rows

    def wait_for_change(self, start: int, stop: int, rows: list[Row], timeout: float) -> bool:
        """Waits until the client no longer knows that the range has just these rows: a read may
        have something new. False if the time is over. It sends nothing."""
        packed = b"".join(ROW.pack(row.key, len(row.value), row.value) for row in rows)
        return self._call("wait_for_change", timeout, *_range(start, stop), packed, len(rows)) == OK

    def changes(self, start: int = 0, stop: int = TOP) -> Iterator[list[Row]]:
        """The states of the range, which is not empty: its rows now, and then at later moments,
        each time other rows than before. States in between may be missed, and the last one is not.
        It ends when the client leaves."""
        looks = self._looks(*_range(start, stop))
        if start == stop:
            raise BadRange("an empty range does not change")
        return (rows for rows in looks if rows is not None)

    def _looks(self, start: int, stop: int) -> Iterator[list[Row] | None]:
        """The same, with ``None`` after each second without a change."""
        last = None
        with suppress(Closed):
            while True:
                rows = self.read(start, stop)
                yield None if rows == last else rows
                last = rows
                while not self.wait_for_change(start, stop, last, 1.0):
                    yield None

    def forget(self, start: int = 0, stop: int = TOP, timeout: Seconds = None) -> None:
        """Gives back what the client holds of the range."""
        self._call("forget", timeout, *_range(start, stop))

    def pin(self, start: int, stop: int, timeout: Seconds = None) -> Pin:
        """Pins the range as the client holds it, without reading it."""
        return self._pinned("pin_held", start, stop, timeout)

    def pin_for_read(self, start: int, stop: int, timeout: Seconds = None) -> Pin:
        """Reads the range and pins it."""
        return self._pinned("pin_for_read", start, stop, timeout, Rows())

    def pin_for_update(self, start: int, stop: int, timeout: Seconds = None) -> Pin:
        """The same, and no other client pins an overlapping range for an update meanwhile."""
        return self._pinned("pin_for_update", start, stop, timeout, Rows())

    def pin_for_write(self, start: int, stop: int, timeout: Seconds = None) -> Pin:
        """The same, and no other client reads the range meanwhile."""
        return self._pinned("pin_for_write", start, stop, timeout, Rows())

    def _pinned(self, name: str, start: int, stop: int, timeout: Seconds, *found: Rows) -> Pin:
        pin, keys = Handle("pin_free"), _range(start, stop)
        self._call(name, timeout, *keys, *found, ctypes.byref(pin))
        return Pin(pin, found[0].taken() if found else [], self.timeout)

    def status(self) -> list[Status]:
        """What the client shows of its server, or of each shard that it has joined."""
        shown, room = [], ctypes.create_string_buffer(STATUS.size)
        # A client that cannot be used has joined none: then it is asked why.
        for place in range(library().joined(self._handle) or 1):
            if code := library().status_at(self._handle, place, room, None):
                raise refused(code)
            *numbers, left, is_connected = STATUS.unpack(room)
            lease_left = None if left == FOR_EVER else left / 1000
            shown.append(Status._make((*numbers, lease_left, is_connected)))
        return shown

    def epoch(self) -> int:
        """The epoch in the first ``status``."""
        return self.status()[0].epoch

    def keep_all(self) -> None:
        """From now on the client keeps what it reads until another client wants to write it.
        Otherwise, where others have written more of its rows than its cache has answered scans, it
        takes no lock to read: there each read asks the server, also while that is down, and
        ``cached`` returns ``None``, until it has tried again after some hundred reads."""
        call("keep_all", self._handle)

    def follow(self) -> None:
        """From now on the client follows the file of its map, which ``join_map`` was given: it
        continues by each map there whose version is greater. Calls at shards that change wait, and
        are made by the next map."""
        call("follow", self._handle)

    def reload_tls(self) -> None:
        """Reads the TLS files again for new connections. After ``BadOption`` the old ones stay."""
        call("reload_tls", self._handle)

    def leave(self) -> None:
        """Gives back all that the client holds, and waits until each server has that on its disk.
        From then on its calls raise ``Closed``, and ``cached`` returns ``None``."""
        try:
            self._call("leave", None)
        finally:
            self._end.detach()
            self._handle = Handle("free")

    def __exit__(self, *error: object) -> None:
        """Leaves. If that fails during another error, the other error is raised."""
        with suppress(*() if error[0] is None else (Refused,)):
            if self._handle.value is not None:
                self.leave()


class Reader:
    """Reads a table, at ``servers`` or at the servers of a ``map`` of shards, without being one of
    its clients: it has no number and no lock file, and keeps nothing. Each call asks the server.
    A reader of a map follows it. Threads that use one reader take turns."""

    def __init__(self, servers: str = "", timeout: float = 15.0, *, map: PathLike = "",
                 tls: Tls | None = None) -> None:
        options = _options(0, tls, timeout, servers=servers, map=map)
        self._handle = Handle("reader_free")
        call("reader_connect", ctypes.byref(options), ctypes.byref(self._handle))

    def read(self, start: int = 0, stop: int = TOP) -> list[Row]:
        """The rows with keys from ``start`` on below ``stop``, as ``Client.read_once`` has them."""
        call("reader_read", self._handle, *_range(start, stop), found := Rows())
        return found.taken()

    def get(self, key: int) -> bytes | None:
        """The value of the row of this key, or ``None`` if there is none."""
        rows = self.read(*_range_of(key))
        return rows[0].value if rows else None


def connect(servers: str, timeout: float = 15.0, *, tls: Tls | None = None) -> Client:
    """Joins the server by the first number that is free. The lock file is in the folder ``krl`` of
    ``$XDG_STATE_HOME`` or ``$HOME/.local/state``. This is for servers with leases: without them, a
    server cannot tell a silent client of another machine from one that is gone."""
    return Client(servers, _options(0, tls, timeout, servers=servers))


def join(servers: str, number: Numbers, lock_file: PathLike, timeout: float = 15.0,
         *, tls: Tls | None = None, wait_if_in_use: Seconds = None) -> Client:
    """Joins the server as the client of this number, from 0 to 63; or as that of the first free
    one of several, such as ``range(0, 8)``: then ``lock_file`` is the folder of their lock files.
    If the server reports that another process has the number, ``join`` waits for at most
    ``wait_if_in_use`` seconds, by default for the timeout."""
    texts = {"servers": servers, "lock_file": lock_file}
    return Client(servers, _options(number, tls, timeout, wait_if_in_use, **texts))


def join_map(map: PathLike, number: Numbers, lock_folder: PathLike, timeout: float = 15.0,
             *, keys: tuple[int, int] = (0, TOP), tls: Tls | None = None,
             wait_if_in_use: Seconds = None) -> Client:
    """Joins the servers of a map of shards, as ``join`` does one server: those that have some of
    the keys from the first of ``keys`` on below the second. While a shard changes it waits, and
    continues by a next map in the file."""
    texts = {"map": map, "lock_file": lock_folder}
    options = _options(number, tls, timeout, wait_if_in_use, **texts)
    options.lo, options.hi = _range(*keys)
    return Client(f"the map {os.fspath(map)}", options)


def evict(servers: str, number: int, lock_file: PathLike, *, tls: Tls | None = None) -> None:
    """Ends the client of this number for good, if its process is gone: an operator's call. **The
    process of a client without a lease has to be dead**: see ``krlc_evict``."""
    options = _options(index(number), tls, servers=servers, lock_file=lock_file)
    call("evict", ctypes.byref(options))


def _options(number: Numbers, tls: Tls | None, *seconds: Seconds, **texts: PathLike) -> Options:
    several = set(number) if isinstance(number, Iterable) else {number}
    if not several or not all(0 <= index(one) < NUMBERS for one in several):
        raise BadOption(f"a client's number is 0 to 63, not {number!r}")
    bits = sum(1 << one for one in several)
    words = {"numbers": bits} if isinstance(number, Iterable) else {"number": number}
    times = zip(("timeout_ms", "wait_if_in_use_ms"), seconds)
    words |= {name: _milliseconds(it) for name, it in times if it is not None}
    named = zip(("tls_authority", "tls_certificate", "tls_key", "table"), tls or ())
    encoded = {name: os.fsencode(text) for name, text in (*texts.items(), *named) if text}
    if faults := [text for text in encoded.values() if b"\0" in text]:
        raise BadOption(f"no text of an option has a zero in it, as {faults[0]!r} has")
    return Options(size=ctypes.sizeof(Options), **words, **encoded)
