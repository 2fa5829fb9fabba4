"""The calls of ``libkrl_cache.so``, as ``krl_cache.h`` declares and describes them, and the errors
that they report."""

import ctypes
import functools
import struct
from collections.abc import Sequence
from ctypes import byref, c_char, c_char_p, c_int64, c_size_t, c_uint32, c_void_p
from types import SimpleNamespace
from typing import Any
from uuid import UUID

from ._library import Handle, declared, load, made
from .errors import Error

NAMED_BY = "KRL_CACHE_LIBRARY"
KeyValue = int | str | UUID

# Codes of the header.
OK, ABSENT, MISS, ANSWERS, BAD_COLUMN, AWAY = 0, 2, 5, 15, 84, 86

_AT_ONCE = """version:i fault:ipp table_fault:ipp statistics_of:ippp cached_get:ippnpp cached_get_many:ippnnpp
    cached_range:ipttpp cached_packed:ippnpppp rows_new:p rows_share:pp rows_free:-p rows_count:np
    has_row:?pn packed:ppnpp columns:npn column_name:ppnnp column_type:ipnn text:ipnnppp"""
_WAITING = """open:ippp close:-p table_open:ipspp table_free:-p get:ippnpp get_many:ippnnpp
    get_all:ippnpp range:ipttpp"""
_OPTIONS = """size:n database:s user:s password:s lock_folder:s first_number:i end_number:i
    memory:q timeout_ms:q tls_authority:s tls_certificate:s tls_key:s tls_table:s"""
# A krlcache_statistics. A krlcache_value that is an integer: the kind, and the number.
STATISTICS, _INTEGER = struct.Struct("=9Q"), struct.Struct("=I4xq16x")


class Failure(ctypes.Structure):  # krlcache_error
    _fields_ = [("code", c_uint32), ("sentence", c_char * 500), ("sqlstate", c_char * 6)]


class Options(ctypes.Structure):  # krlcache_options
    _fields_ = [(name, kind) for name, (kind,) in declared(_OPTIONS)]


class Value(ctypes.Structure):  # krlcache_value
    _fields_ = [("kind", c_uint32), ("integer", c_int64), ("bytes", c_char_p), ("length", c_size_t)]


class CacheError(Error):
    """A call of a cache failed. ``code`` is that of ``krl_cache.h``, and ``sqlstate`` the code that
    the database reported, such as ``"42501"``, or ``None`` if it reported none."""

    code = 0
    sqlstate: str | None = None
    kinds: "dict[int, type[CacheError]]" = {}

    def __init_subclass__(cls, code: int) -> None:
        cls.code, cls.kinds[code] = code, cls


class BadArgument(CacheError, ValueError, code=16): """An argument is not valid."""
class BadKey(CacheError, ValueError, code=18): """It is not a key of the table."""
class BadNumbers(CacheError, ValueError, code=20): """The numbers are not some of 0 to 63."""
class BadAddress(CacheError, ValueError, code=21): """It is not an address of PostgreSQL."""
class BadTls(CacheError, ValueError, code=23): """A file for TLS cannot be used."""
class Forked(CacheError, code=28): """A cache does not survive a fork: open one in the child."""
class Stopped(CacheError, code=45): """A fault of the library, which standard error shows."""
class OutOfMemory(CacheError, MemoryError, code=63): """Memory was refused."""
class DatabaseError(CacheError, code=80): """The database refused the call, or was late."""
class NoExtension(CacheError, code=82): """The database has no extension ``krl``."""
class SeveralRows(CacheError, code=83): """The key has several rows: ``get_all`` reads them."""
class BadColumn(CacheError, code=BAD_COLUMN): """A column is not as it is converted."""
class SystemRefused(CacheError, OSError, code=85): """The folder or a thread was refused."""
class Closed(CacheError, code=-1): """The cache is closed."""


@functools.cache
def calls() -> SimpleNamespace:
    """The calls of the library, which is loaded once, or a ``LibraryError``."""
    return load("libkrl_cache.so", NAMED_BY, "krlcache_", _AT_ONCE, _WAITING)


def refused(code: int, failure: Failure) -> CacheError:
    """The error of a call that returned this code."""
    error = CacheError.kinds.get(code, Stopped)(failure.sentence.decode())
    error.sqlstate = failure.sqlstate.decode() or None
    return error


def fault_of(name: str, handle: c_void_p) -> str | None:
    """The sentence of a call that reports why rows are not kept, if they are not."""
    code = getattr(calls(), name)(handle, byref(failure := Failure()))
    if code not in (OK, AWAY):
        raise refused(code, failure)
    return failure.sentence.decode() if code == AWAY else None


def call(name: str, *words: Any) -> int:
    """Makes a call whose last parameter is an error, on a thread that may wait. It returns a code,
    or raises the error."""
    failure = Failure()
    code: int = made(getattr(calls(), name), *words, byref(failure))
    # An error keeps what this function names as long as somebody keeps the error.
    del words
    if code > ANSWERS:
        raise refused(code, failure)
    return code


def packed_key(values: Sequence[KeyValue]) -> bytes | ctypes.Array[Value]:
    """The values of a key, or of several, as an array of ``krlcache_value``."""
    try:
        if len(values) == 1:
            return _INTEGER.pack(0, values[0])
        return b"".join([_INTEGER.pack(0, value) for value in values])
    except struct.error:
        return (Value * len(values))(*map(_value, values))


def _value(value: KeyValue) -> Value:
    if isinstance(value, str):
        text = value.encode()
        return Value(1, 0, text, len(text))
    if isinstance(value, UUID):
        return Value(2, 0, value.bytes, 16)
    if not isinstance(value, int):
        raise TypeError(f"a value of a key is an integer, a text or a UUID, not {value!r}")
    if not -(1 << 63) <= value < 1 << 63:
        raise BadKey(f"an integer of a key has 64 bits, and {value} has more")
    return Value(0, value, None, 0)


class Room:
    """Room for the rows of one answer, and for what ``krlcache_cached_packed`` writes."""

    __slots__ = ("rows", "at", "length", "layout", "out", "_packed")

    def __init__(self) -> None:
        self.rows = Handle("rows_free", calls().rows_new(), calls())
        if self.rows.value is None:
            raise OutOfMemory("memory was refused")
        self.at, self.length, self.layout = c_void_p(), c_size_t(), c_void_p()
        self.out = byref(self.at), byref(self.length), byref(self.layout)
        self._packed = calls().packed

    def pack(self, place: int) -> None:
        """Has the columns of the row at this place, and their layout."""
        self.at.value = self._packed(self.rows, place, *self.out[1:])
