"""Cached tables of PostgreSQL: rows are read from memory while any SQL writes them, and no read is
stale. ``krl_cache.h`` describes each call in full.

    with krl.cache.Cache("postgres://shop@127.0.0.1/shop", "/var/lib/shop/krl") as cache:
        items = cache.table("item")
        if lamp := items.get(15):
            print(lamp["name"], lamp["price"])
        shelf = items.range(10, 20)

Values of a key are integers, texts and UUIDs. A column is an ``int``, ``float``, ``bool``, ``str``,
``bytes``, ``Decimal``, ``UUID``, ``date``, ``time`` or ``datetime``, and ``None`` if it is NULL. A
value of an enum is a ``str``. Columns of other types are ``bytes``, as PostgreSQL sends them."""

import asyncio
import ctypes
import logging
import os
import weakref
from collections.abc import Callable, Iterable, Sequence
from enum import Enum
from typing import Any, Final, Literal, NamedTuple, Self, TypeVar

from ._cache_library import ABSENT, MISS as _MISS, OK, STATISTICS, Failure, KeyValue, Options
from ._cache_library import BadAddress as BadAddress, BadArgument as BadArgument
from ._cache_library import BadKey as BadKey, BadNumbers as BadNumbers
from ._cache_library import BadTls as BadTls, CacheError as CacheError, Closed as Closed
from ._cache_library import DatabaseError as DatabaseError, Forked as Forked
from ._cache_library import NoExtension as NoExtension, OutOfMemory as OutOfMemory
from ._cache_library import SeveralRows as SeveralRows, Stopped as Stopped
from ._cache_library import SystemRefused as SystemRefused
from ._cache_library import Room, call, calls, fault_of, packed_key, refused
from ._cache_rows import Row as Row, packed_row, row_at, rows_in
from ._library import Handle, made, workers
from .client import Tls, _milliseconds

T = TypeVar("T")
Key = KeyValue | Sequence[KeyValue]
"""A value, or a tuple of the values of several columns."""

_FIRST_KEY, _END_OF_KEYS = -(1 << 63), 1 << 63
_log = logging.getLogger("krl.cache")


class Miss(Enum):
    """What a read from memory returns that does not know all rows."""

    MISS = None


MISS: Final = Miss.MISS


class Statistics(NamedTuple):
    """A ``krlcache_statistics``: what was done for a table since it was opened."""

    hits: int
    misses: int
    loads: int
    kept: int
    unkept: int
    away: int
    evictions: int
    keys: int
    bytes: int


# Rooms that no call uses. A call takes one for itself, also if it interrupts another one.
_idle: list[Room] = []


def _taken_room() -> Room:
    try:
        return _idle.pop()
    except IndexError:
        return Room()


class Table:
    """A table of a cache, which any threads may use."""

    def __init__(self, cache: "Cache", name: str) -> None:
        # A cache that nobody has gives everything back.
        self._cache, self.name, library = cache, name, calls()
        if "\0" in name:
            raise BadArgument(f"no name of a table has a zero in it, as {name!r} has")
        self._handle, self._logged = Handle("table_free", calls=library), cache._logged
        call("table_open", cache._own(), name.encode(), ctypes.byref(self._handle))
        self._cached_packed = library.cached_packed

    def __repr__(self) -> str:
        return f"<krl.cache.Table {self.name}>"

    def get(self, *key: KeyValue) -> Row | None:
        """The row of a key, if there is one: from memory, otherwise from the database."""
        row = self.cached_get(*key)
        return self._get(key) if row is MISS else row

    def _get(self, key: Sequence[KeyValue]) -> Row | None:
        code = call("get", self._handle, packed_key(key), len(key), (room := Room()).rows)
        return row_at(room, 0) if code == OK else None

    def cached_get(self, *key: KeyValue) -> Row | None | Literal[Miss.MISS]:
        """The same from memory only, or ``MISS`` if it is not there: it waits for nobody. Only
        ``get`` has what is missing loaded."""
        room, values = _taken_room(), packed_key(key)
        code = self._cached_packed(self._handle, values, len(key), room.rows, *room.out)
        if code == OK:
            row = packed_row(room, 0)
            _idle.append(room)
            return row
        _idle.append(room)
        return None if code == ABSENT else self._missed(code, "cached_get", values, len(key))

    def get_many(self, keys: Iterable[Key]) -> list[Row | None]:
        """The row of each key, if there is one, as they are at one moment."""
        rows = self.cached_get_many(keys := list(keys))
        return self._get_many(keys) if rows is MISS else rows

    def _get_many(self, keys: Sequence[Key]) -> list[Row | None]:
        call("get_many", self._handle, *_packed_keys(keys), (room := Room()).rows)
        return rows_in(room)

    def cached_get_many(self, keys: Iterable[Key]) -> list[Row | None] | Literal[Miss.MISS]:
        """The same from memory only, or ``MISS`` if not all of the keys are there."""
        return self._cached("cached_get_many", *_packed_keys(list(keys)))

    def get_all(self, *key: KeyValue) -> list[Row]:
        """All rows of a key, for a table whose key columns are not unique."""
        call("get_all", self._handle, packed_key(key), len(key), (room := Room()).rows)
        self._log_fault()
        return _all(rows_in(room))

    def range(self, start: int = _FIRST_KEY, stop: int = _END_OF_KEYS) -> list[Row]:
        """The rows with keys from ``start`` on below ``stop``, as they are at one moment."""
        rows = self.cached_range(start, stop)
        return self._range(start, stop) if rows is MISS else rows

    def _range(self, start: int, stop: int) -> list[Row]:
        call("range", self._handle, *_ends(start, stop), (room := Room()).rows)
        return _all(rows_in(room))

    def cached_range(
        self, start: int = _FIRST_KEY, stop: int = _END_OF_KEYS
    ) -> list[Row] | Literal[Miss.MISS]:
        """The same from memory only, or ``MISS`` if not all of the keys are there."""
        rows = self._cached("cached_range", *_ends(start, stop))
        return rows if rows is MISS else _all(rows)

    def fault(self) -> str | None:
        """Why the rows of this table are not kept at present: the fault of the cache, or what is so
        of this table, such as a missing right, or that it is not cached. The log ``krl.cache`` has
        each reason once, from a read that was not answered from memory."""
        return fault_of("table_fault", self._handle)

    def statistics(self) -> Statistics:
        """What was done since the table was opened."""
        counted, failure = ctypes.create_string_buffer(STATISTICS.size), Failure()
        if code := calls().statistics_of(self._handle, counted, ctypes.byref(failure)):
            raise refused(code, failure)
        return Statistics._make(STATISTICS.unpack(counted))

    def _cached(self, name: str, *words: Any) -> list[Row | None] | Literal[Miss.MISS]:
        room = _taken_room()
        code = getattr(calls(), name)(self._handle, *words, room.rows, None)
        rows = rows_in(room) if code == OK else []
        _idle.append(room)
        return rows if code == OK else self._missed(code, name, *words)

    def _missed(self, code: int, name: str, *words: Any) -> Literal[Miss.MISS]:
        """A miss; or the error, for which the call is made again."""
        if code != _MISS:
            failure = Failure()
            getattr(calls(), name)(self._handle, *words, Room().rows, ctypes.byref(failure))
            raise refused(code, failure)
        self._log_fault()
        return MISS

    def _log_fault(self) -> None:
        if (why := self.fault()) is not None and why not in self._logged:
            self._logged.add(why)
            _log.warning("rows are not kept: %s", why)


class Cache:
    """The tables that a process reads: it opens one, which is one client of krl. It gives back all
    that it holds at the end of a ``with``, when it is collected, and when the process exits.

    ``database`` is an address such as ``postgres://shop@127.0.0.1:5432/shop``, without a password;
    ``lock_folder`` is the same one for all processes of this machine. ``user`` is the name and the
    password of the user who connects, as ``("shop", "secret")``. ``numbers`` are those of krl's
    clients of which the first free one is taken, by default ``range(0, 56)``; ``memory`` the bytes
    that are kept of a table, by default 64 MiB; ``timeout`` how many seconds a read waits for the
    database."""

    def __init__(self, database: str, lock_folder: str | os.PathLike[str], *,
                 user: tuple[str, str] | None = None, numbers: range | None = None,
                 memory: int = 0, timeout: float = 30.0, tls: Tls | None = None) -> None:
        options, library = _options(database, lock_folder, user, numbers, tls), calls()
        options.memory, options.timeout_ms = memory, _milliseconds(timeout)
        self._database, self._handle, failure = database, ctypes.c_void_p(), Failure()
        self._logged: set[str] = set()
        room = ctypes.byref(self._handle)
        if code := library.open(ctypes.byref(options), room, ctypes.byref(failure)):
            raise refused(code, failure)
        self._end = weakref.finalize(self, library.close, self._handle)
        self._end.atexit = False  # The library gives back when the process ends.

    def __repr__(self) -> str:
        return f"<krl.cache.Cache of {self._database}>"

    def table(self, name: str) -> Table:
        """Opens a table by its name in SQL. Each call begins with empty memory."""
        return Table(self, name)

    def _own(self) -> ctypes.c_void_p:
        """The handle, unless the cache is closed."""
        if self._handle.value is None:
            raise Closed("the cache is closed")
        return self._handle

    def fault(self) -> str | None:
        """Why the rows of no table are kept at present, while the database answers all reads."""
        return fault_of("fault", self._own())

    def close(self) -> None:
        """Gives back all that the process holds, and waits until that is done. Its tables are read
        from the database from then on."""
        if self._end.detach() is not None:
            handle, self._handle = self._handle, ctypes.c_void_p()
            made(calls().close, handle)

    def __enter__(self) -> Self:
        return self

    def __exit__(self, *error: object) -> None:
        self.close()


def _options(database: str, lock_folder: str | os.PathLike[str], user: tuple[str, str] | None,
             numbers: range | None, tls: Tls | None) -> Options:
    texts: dict[str, str | os.PathLike[str] | None]
    texts = {"database": database, "lock_folder": lock_folder}
    texts |= zip(("user", "password"), user or ())
    texts |= {f"tls_{name}": file for name, file in (tls._asdict() if tls else {}).items()}
    encoded = {name: os.fsencode(text) for name, text in texts.items() if text is not None}
    if faults := [name for name, text in encoded.items() if b"\0" in text]:
        raise BadArgument(f"the option {faults[0]} has a zero in it")
    if numbers is not None:
        if numbers.step != 1 or not 0 <= numbers.start < numbers.stop <= 64:
            raise BadNumbers(f"the numbers are a range of some of 0 to 63, not {numbers!r}")
        ends = {"first_number": numbers.start, "end_number": numbers.stop}
        return Options(size=ctypes.sizeof(Options), **ends, **encoded)
    return Options(size=ctypes.sizeof(Options), **encoded)


def _packed_keys(keys: Sequence[Key]) -> tuple[Any, int, int]:
    """The values of several keys, the number of the keys, and that of the columns of each."""
    values = [key if isinstance(key, (tuple, list)) else (key,) for key in keys]
    columns = {len(key) for key in values} or {1}
    if len(columns) > 1:
        raise BadKey(f"all keys of a call have the same number of columns, not {sorted(columns)}")
    return packed_key([value for key in values for value in key]), len(values), columns.pop()


def _ends(start: int, stop: int) -> tuple[int, int]:
    """The first and the last key of a range, of which C knows 64 bits."""
    first, last = max(start, _FIRST_KEY), min(stop, _END_OF_KEYS) - 1
    return (first, last) if first <= last else (1, 0)


def _all(rows: list[Row | None]) -> list[Row]:
    return [row for row in rows if row is not None]


async def _awaited(call: Callable[..., T], *words: Any) -> T:
    """Has a thread make a call that may wait."""
    return await asyncio.wrap_future(workers[0].begin(call, *words))


class AsyncTable:
    """A table for ``asyncio``. What is in memory is read at once, without a thread. ``of_threads``
    is the same table, whose calls are not awaited."""

    def __init__(self, table: Table) -> None:
        self.of_threads, self.name, self.statistics = table, table.name, table.statistics
        self.fault = table.fault
        self.cached_get, self.cached_get_many = table.cached_get, table.cached_get_many
        self.cached_range = table.cached_range

    async def get(self, *key: KeyValue) -> Row | None:
        """``Table.get``."""
        row = self.cached_get(*key)
        return await _awaited(self.of_threads._get, key) if row is MISS else row

    async def get_many(self, keys: Iterable[Key]) -> list[Row | None]:
        """``Table.get_many``."""
        rows = self.cached_get_many(keys := list(keys))
        return await _awaited(self.of_threads._get_many, keys) if rows is MISS else rows

    async def get_all(self, *key: KeyValue) -> list[Row]:
        """``Table.get_all``."""
        return await _awaited(self.of_threads.get_all, *key)

    async def range(self, start: int = _FIRST_KEY, stop: int = _END_OF_KEYS) -> list[Row]:
        """``Table.range``."""
        rows = self.cached_range(start, stop)
        return await _awaited(self.of_threads._range, start, stop) if rows is MISS else rows


class AsyncCache:
    """A cache for ``asyncio``: it takes what ``Cache`` takes. It gives back all that it holds at
    the end of an ``async with``."""

    def __init__(self, *words: Any, **named: Any) -> None:
        self.of_threads = Cache(*words, **named)
        self.fault = self.of_threads.fault

    async def table(self, name: str) -> AsyncTable:
        """``Cache.table``."""
        return AsyncTable(await _awaited(self.of_threads.table, name))

    async def close(self) -> None:
        """``Cache.close``."""
        await _awaited(self.of_threads.close)

    async def __aenter__(self) -> Self:
        return self

    async def __aexit__(self, *error: object) -> None:
        await self.close()
