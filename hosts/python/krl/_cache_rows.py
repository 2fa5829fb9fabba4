"""Rows as PostgreSQL sends them, in its binary format, and what their columns are in Python."""

import struct
from collections.abc import Callable, Iterator, Mapping
from ctypes import byref, c_size_t, c_void_p, string_at
from datetime import date, datetime, time, timedelta, timezone
from decimal import Decimal
from typing import Any, NamedTuple
from uuid import UUID

from ._cache_library import BAD_COLUMN, Room, calls
from ._library import Handle

_LENGTH = struct.Struct("=i").unpack_from
# The first moment of PostgreSQL's times, which count microseconds from it, and days.
_FIRST, _FIRST_DAY = datetime(2000, 1, 1), date(2000, 1, 1).toordinal()
_FIRST_IN_UTC = _FIRST.replace(tzinfo=timezone.utc)
_NOT_A_NUMBER = {0xC000: Decimal("NaN"), 0xD000: Decimal("Infinity"), 0xF000: Decimal("-Infinity")}
_MINUS = 0x4000


def _integer(sent: bytes) -> int:
    return int.from_bytes(sent, "big", signed=True)


def _text(sent: bytes) -> str:
    return sent.decode()


def _jsonb(sent: bytes) -> str:
    # The first byte is the version of the format.
    return sent[1:].decode()


def _numeric(sent: bytes) -> Decimal:
    """Digits to the base of 10,000, with a weight, a sign and the digits after the point."""
    count, weight, sign, scale = struct.unpack_from(">HhHH", sent)
    if sign in _NOT_A_NUMBER:
        return _NOT_A_NUMBER[sign]
    number = 0
    for digit in struct.unpack_from(f">{count}H", sent, 8):
        number = number * 10_000 + digit
    # The digits that are missing after the point are zeros, and so are those that are too many.
    missing = scale + 4 * (weight + 1 - count)
    number = number * 10**missing if missing >= 0 else number // 10**-missing
    return Decimal((int(sign == _MINUS), tuple(map(int, str(number))), -scale))


def _moment(first: datetime) -> Callable[[bytes], datetime]:
    """A conversion of times that begin at this one. Infinity is the last one, or the first one."""
    ends = {(1 << 63) - 1: datetime.max, -(1 << 63): datetime.min}
    limits = {count: end.replace(tzinfo=first.tzinfo) for count, end in ends.items()}

    def converted(sent: bytes) -> datetime:
        count = _integer(sent)
        return limits[count] if count in limits else first + timedelta(microseconds=count)

    return converted


def _date(sent: bytes) -> date:
    days = _integer(sent)
    limits = {(1 << 31) - 1: date.max, -(1 << 31): date.min}
    return limits[days] if days in limits else date.fromordinal(_FIRST_DAY + days)


def _time(sent: bytes) -> time:
    # Also 24:00, which is the first moment of the next day.
    return (_FIRST + timedelta(microseconds=_integer(sent))).time()


_TEXTS = (18, 19, 25, 114, 142, 705, 1042, 1043)
# Those of other types that `krlcache_text` reads are texts too, and others are bytes.
_CONVERSIONS: dict[int, Callable[[bytes], Any]] = {
    16: lambda sent: sent != b"\0",
    20: _integer, 21: _integer, 23: _integer, 26: lambda sent: int.from_bytes(sent, "big"),
    700: lambda sent: struct.unpack(">f", sent)[0], 701: lambda sent: struct.unpack(">d", sent)[0],
    1082: _date, 1083: _time, 1114: _moment(_FIRST), 1184: _moment(_FIRST_IN_UTC),
    1700: _numeric, 2950: lambda sent: UUID(bytes=sent), 3802: _jsonb,
} | dict.fromkeys(_TEXTS, _text)
"""What columns are converted by, by the number of their type."""


class Layout(NamedTuple):
    """The columns of a table: the place of each, its conversion, and its type's number."""

    places: dict[str, int]
    conversions: tuple[Callable[[bytes], Any], ...]
    types: tuple[int, ...]
    # As long as a handle has such a row, no other layout has its address.
    keeper: Handle


# By their addresses. A table has a few, and new ones when its columns change.
_layouts: dict[int | None, Layout] = {}
MOST_LAYOUTS = 256


class Row(Mapping[str, Any]):
    """A row: what its columns are, by their names. They are converted when they are read. It is
    equal to a ``dict`` of the same columns."""

    __slots__ = ("_layout", "_packed")

    def __init__(self, layout: Layout, packed: bytes) -> None:
        self._layout, self._packed = layout, packed

    def __getitem__(self, name: str) -> Any:
        place = self._layout.places[name]
        packed, at = self._packed, 0
        for _ in range(place):
            (length,) = _LENGTH(packed, at)
            at += 4 + length if length > 0 else 4
        (length,) = _LENGTH(packed, at)
        if length < 0:
            return None
        return self._layout.conversions[place](packed[at + 4 : at + 4 + length])

    def __iter__(self) -> Iterator[str]:
        return iter(self._layout.places)

    def __len__(self) -> int:
        return len(self._layout.places)

    def __repr__(self) -> str:
        return f"Row({dict(self)!r})"

    def types(self) -> dict[str, int]:
        """The number (oid) of the type of each column."""
        return dict(zip(self._layout.places, self._layout.types))


def row_at(room: Room, place: int) -> Row:
    """The row at a place of an answer, which has one there."""
    room.pack(place)
    return packed_row(room, place)


def packed_row(room: Room, place: int) -> Row:
    """The same, after a call that has written where the columns of the row are."""
    layout = _layouts.get(room.layout.value) or _found(room, place)
    return Row(layout, string_at(room.at, room.length.value))


def _found(room: Room, place: int) -> Layout:
    library, length = calls(), c_size_t()
    names, types = [], []
    for column in range(library.columns(room.rows, place)):
        at = library.column_name(room.rows, place, column, byref(length))
        names.append(string_at(at, length.value).decode())
        types.append(library.column_type(room.rows, place, column))
    conversions = tuple(
        _CONVERSIONS.get(kind) or _other(room, place, column) for column, kind in enumerate(types)
    )
    keeper = Handle("rows_free", library.rows_share(room.rows), library)
    places = {name: place for place, name in enumerate(names)}
    layout = Layout(places, conversions, tuple(types), keeper)
    if keeper.value is not None:
        if len(_layouts) >= MOST_LAYOUTS:
            _layouts.clear()
        _layouts[room.layout.value] = layout
    return layout


def _other(room: Room, place: int, column: int) -> Callable[[bytes], Any]:
    """The conversion of a column whose type has no number of its own, such as an enum."""
    out = byref(c_void_p()), byref(c_size_t())
    if calls().text(room.rows, place, column, *out, None) == BAD_COLUMN:
        return bytes
    return _text


def rows_in(room: Room) -> list[Row | None]:
    """The row at each place of an answer, if there is one."""
    library, rows = calls(), room.rows
    places = range(library.rows_count(rows))
    return [row_at(room, place) if library.has_row(rows, place) else None for place in places]
