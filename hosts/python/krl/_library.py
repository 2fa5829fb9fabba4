"""The calls of ``libkrl_client.so``, as ``krl_client.h`` declares and describes them, and threads
that make those which wait. A thread that waits within the library handles no signal, and Python
runs handlers of signals, such as that of Ctrl-C, only on the main thread. So another thread makes
the waiting calls of the main thread, and those of an event loop."""

import ctypes
import functools
import os
import struct
from collections.abc import Callable
from concurrent.futures import Future
from contextlib import suppress
from ctypes import byref, c_bool, c_char, c_char_p, c_int32, c_int64, c_size_t, c_uint32, c_uint64
from ctypes import c_void_p
from pathlib import Path
from queue import SimpleQueue
from threading import Semaphore, Thread, current_thread, main_thread
from types import SimpleNamespace
from typing import Any, NamedTuple, TypeVar

from .errors import BadOption, Closed, Forked, JoinError, LibraryError, LockFileError
from .errors import LockFileTaken, OutOfMemory, Reason, Refused, Stopped

T = TypeVar("T")
# The file, if it is neither in the package nor where the system looks, and the version that it has.
NAMED_BY, VERSION = "KRL_CLIENT_LIBRARY", "0.1"

# Codes of the header. Those up to ANSWERS are not errors.
OK, MISS, ANSWERS, MISUSE, BAD_TLS = 0, 5, 15, 16, 23
JOIN_ERRORS: dict[int, type[JoinError]] = {24: LockFileError, 29: LockFileTaken}
JOIN_ERRORS |= dict.fromkeys((MISUSE, 17, 20, 21, 22, BAD_TLS), BadOption)
NUMBERS, FOR_EVER = 64, (1 << 64) - 1
END, TOP = (1 << 63) - 1, 1 << 63
"""One past the greatest key, and the end of the widest range."""
# The most calls that wait at once. A client has one lock request at a time on its way, and one write.
MOST = 32

# Types by letters. "p" is any pointer: ctypes takes a handle, a reference or an array for it.
_TYPES: dict[str, Any] = {"-": None, "?": c_bool, "i": c_uint32, "n": c_size_t, "q": c_uint64}
_TYPES |= {"s": c_char_p, "p": c_void_p, "t": c_int64}

# The calls, with the types of their results and parameters. Those that wait for nobody keep the interpreter's lock;
# while the others wait, other threads of the program continue.
_AT_ONCE = """version:i is_unknown_outcome:?i number:ip joined:np status_at:ipnpp cached:ipqqp
    cached_row:ipqp pin_holds:ip rows_new:p rows_get:ppp rows_free:-p"""
_WAITING = """join:ippp evict:ipp leave:ipqp free:-p keep_all:ipp follow:ipp reload_tls:ipp read:ipqqpqp
    forget:ipqqqp wait_for_change:ipqqsnqp write_all:ippnqp pin_write_all:ippnqp pin_held:ipqqpqp
    read_once:ipqqpqp reader_connect:ippp reader_read:ipqqpp reader_free:-p
    pin_free:-p pin_for_read:ipqqppqp pin_for_update:ipqqppqp pin_for_write:ipqqppqp"""
_OPTIONS = """size:n servers:s map:s lock_file:s number:i numbers:q timeout_ms:q wait_if_in_use_ms:q
    tls_authority:s tls_certificate:s tls_key:s table:s lo:q hi:q"""


def declared(names: str) -> list[tuple[str, list[Any]]]:
    """Each name of a declaration as above, with the types of its letters."""
    parts = (part.split(":") for part in names.split())
    return [(name, [_TYPES[letter] for letter in letters]) for name, letters in parts]


class Failure(ctypes.Structure):  # krlc_error
    _fields_ = [("code", c_uint32), ("shard", c_int32), ("reason", c_int32), ("text", c_char * 500)]


class Options(ctypes.Structure):  # krlc_options
    _fields_ = [(name, kind) for name, (kind,) in declared(_OPTIONS)]


class Row(NamedTuple):
    """A row of the table."""
    key: int
    value: bytes


# A krlc_row: the key, the length of the value, and its bytes. A krlc_write: kind, outcome and row.
# A krlc_status: shard, epoch, incarnation, what is left of the lease, and whether it is connected.
ROW, WRITE, STATUS = map(struct.Struct, ("=QQ32s", "=IIQQ32s", "=QQQQ?7x"))
RowRoom, _new = c_char * ROW.size, tuple.__new__


def rows_in(packed: bytes | ctypes.Array[c_char]) -> list[Row]:
    """The rows of an array of ``krlc_row``. Each is made of a tuple, which is the fastest way."""
    return [_new(Row, (key, value[:length])) for key, length, value in ROW.iter_unpack(packed)]


class Handle(c_void_p):
    """A client, a pin or rows, which is freed with the last reference to it: each call that uses
    it has one, so none uses it while it is freed. A null handle stands for one that is gone."""

    def __init__(
        self, free: str, value: int | None = None, calls: SimpleNamespace | None = None
    ) -> None:
        super().__init__(value)
        self._free = getattr(calls or library(), free)

    def __del__(self) -> None:
        if self.value is not None:
            self._free(self)


class Rows(Handle):
    """Room for the rows of one answer."""

    def __init__(self) -> None:
        super().__init__("rows_free", library().rows_new())
        if self.value is None:
            raise OutOfMemory("memory was refused")

    def taken(self) -> list[Row]:
        at = library().rows_get(self, byref(count := c_size_t()))
        return rows_in(ctypes.string_at(at, count.value * ROW.size))


@functools.cache
def library() -> SimpleNamespace:
    """The calls of the library, which is loaded once, or a ``LibraryError``."""
    return load("libkrl_client.so", NAMED_BY, "krlc_", _AT_ONCE, _WAITING)


def load(name: str, named_by: str, prefix: str, *calls: str) -> SimpleNamespace:
    """The calls of a library of krl, by their names without the prefix."""
    here, faults = Path(__file__).resolve().parent, []
    # `make install` puts the package into share/krl/python, next to the folder lib.
    places = [f"{here}/{name}", os.path.normpath(f"{here}/../../../../lib/{name}.0"), f"{name}.0"]
    for place in [os.environ[named_by]] if os.environ.get(named_by) else places:
        try:
            return _loaded(place, prefix, *calls)
        except (OSError, AttributeError) as fault:
            faults.append(str(fault))
    raise LibraryError(f"{name} cannot be loaded: put it into the package krl or where the system "
                       f"looks for libraries, or name the file by {named_by}. "
                       f"Tried: {'; '.join(faults)}")


def _loaded(place: str, prefix: str, at_once: str, waiting: str) -> SimpleNamespace:
    """The calls of the library at this place."""
    calls = SimpleNamespace()
    for loaded, names in ((ctypes.PyDLL(place), at_once), (ctypes.CDLL(place), waiting)):
        for name, types in declared(names):
            function = getattr(loaded, prefix + name)
            function.restype, *function.argtypes = types
            setattr(calls, name, function)
    check_version(calls.version())
    return calls


def check_version(version: int) -> None:
    """Raises ``OSError`` if a library of this version has other calls than those declared here."""
    if (found := f"{version // 1_000_000}.{version // 1000 % 1000}") != VERSION:
        raise OSError(f"the library has version {found}, and this package needs {VERSION}")


class Workers:
    """Threads that are started when they are needed, and end with the process."""

    def __init__(self) -> None:
        self._work: SimpleQueue[Callable[[], None]] = SimpleQueue()
        self._idle, self._unstarted = Semaphore(0), Semaphore(MOST)

    def begin(self, call: Callable[..., T], *arguments: Any) -> Future[T]:
        """Has a thread make the call. Raises ``RuntimeError`` if the system has none for it."""
        future: Future[T] = Future()
        if not self._idle.acquire(blocking=False) and self._unstarted.acquire(blocking=False):
            # One that waits for a server must not keep the process from ending.
            Thread(target=self._run, name="krl", daemon=True).start()
        self._work.put(lambda: _make(future, call, *arguments))
        return future

    def _run(self) -> None:
        while True:
            self._work.get()()
            self._idle.release()


def _make(future: Future[T], call: Callable[..., T], *arguments: Any) -> None:
    if future.set_running_or_notify_cancel():
        try:
            future.set_result(call(*arguments))
        except BaseException as error:
            future.set_exception(error)


workers = [Workers()]
# A child process of a fork has none of the threads.
os.register_at_fork(after_in_child=lambda: workers.__setitem__(0, Workers()))


def made(call: Callable[..., T], *arguments: Any) -> T:
    """Makes a call that may wait. On the main thread Ctrl-C ends the wait, and not the call."""
    if current_thread() is main_thread():
        # An interpreter that ends starts no thread any more.
        with suppress(RuntimeError):
            return workers[0].begin(call, *arguments).result()
    return call(*arguments)


def call(name: str, *words: Any) -> int:
    """Makes a call whose last parameter is an error. It returns a code, or raises the error."""
    function, failure = getattr(library(), name), Failure()
    code: int = made(function, *words, byref(failure))
    # An error keeps what this function names as long as somebody keeps the error.
    del words
    if code <= ANSWERS:
        return code
    if name not in ("join", "evict", "reader_connect") and code != BAD_TLS:
        raise refused(code, failure)
    kind = JOIN_ERRORS.get(code, JoinError)
    raise kind(failure.text.decode()) from (refused(code, failure) if kind is JoinError else None)


def refused(code: int, failure: Failure = Failure(shard=-1, reason=-1)) -> Refused:
    """The error of a client's call that returned this code."""
    # A null handle is one that Python has let go.
    kind = Refused.kinds.get(Closed.code if code == MISUSE else code, Stopped)
    text = "" if kind in (Closed, Forked) else failure.text.decode()
    error = kind(text or kind.__doc__)
    error.is_unknown_outcome = library().is_unknown_outcome(code)
    error.shard = failure.shard if failure.shard >= 0 else None
    error.reason = Reason(failure.reason) if failure.reason in set(Reason) else None
    return error
