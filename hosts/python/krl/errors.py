"""How a write was judged, why a call was refused, and why a client did not join."""

from enum import IntEnum as _IntEnum


class Outcome(_IntEnum):
    """How a write was judged. Only ``APPLIED`` is true: the others changed nothing. In an error's
    ``outcomes`` there may be ``NOT_MADE``, and ``UNKNOWN``: the same client's read shows it."""

    APPLIED, EXISTS, ABSENT, FULL, NOT_HELD = range(5)
    UNKNOWN, NOT_MADE = 46, 66

    def __bool__(self) -> bool:
        return self is Outcome.APPLIED


class Reason(_IntEnum):
    """Why a server does not serve a client. The numbers are those of ``docs/STREAM.md``."""

    VERSION, CLIENT_NUMBER, INCARNATION, FULL, MISSING, LEASE_RUNS = range(6)
    DENIED, OTHER_SHARD, FAR_AHEAD, OTHER_STORE = range(6, 10)


class Error(Exception): """All errors of this package, except those that Python itself raises."""
class LibraryError(Error): """The library was not found, or has another version."""
class JoinError(Error): """The client did not join. ``__cause__`` is what ended it, if one did."""
class LockFileError(JoinError): """The lock file cannot be used, or is in use."""
class LockFileTaken(LockFileError): """This or another process uses it, or those of all numbers."""
class BadOption(JoinError, ValueError): """An argument is not valid, or the address is not krl's."""


class Refused(Error):
    """A call of a client was refused. ``code`` is that of ``krl_client.h``, ``shard`` the one that
    refused it (with a map), and ``reason`` why the server does not serve the client, if it reported
    that. ``is_unknown_outcome``: a write may have been applied, or may still be; a read of the key
    by the same client shows it. ``outcomes``: what became of each write."""

    code = 0
    kinds: "dict[int, type[Refused]]" = {}
    shard: int | None = None
    reason: Reason | None = None
    outcomes: list[Outcome] = []
    is_unknown_outcome = False

    def __init_subclass__(cls, code: int) -> None:
        cls.code = code
        Refused.kinds[code] = cls


class BadRange(Refused, ValueError, code=17): """The range is invalid, or must not be empty."""
class BadKey(Refused, ValueError, code=18): """The key is not from 0 to 2^63 - 2."""
class BadValue(Refused, ValueError, code=19): """The value has more than 32 bytes."""
class Pinned(Refused, code=25): """The range meets a pin of this client."""
class TooManyPins(Refused, code=26): """The client has eight pins."""
class Closed(Refused, code=27): """The client has left."""
class Stopped(Refused, code=44): """The client answers nothing any more. Another may be joined."""
class Forked(Stopped, code=28): """A client does not survive a fork: join in the child process."""
class TimedOut(Refused, TimeoutError, code=40): """No answer came in time."""
class Unserved(TimedOut, code=41): """The same, and the server has reported why: the ``reason``."""
class NotSent(TimedOut, code=66): """The write was not sent, and so was not made."""
class StoreWentBack(Refused, code=42): """The server's store is an older or another one."""
class LeaseEnded(Refused, code=43): """The client's lease ended during the write."""
class TurnedAway(Refused, code=60): """This side of the connection has no right to the number."""
class OtherShard(Refused, code=61): """The server serves another shard, or by another map."""
class PinIsVoid(Refused, code=62): """The pin of the write is free or void: it was not made."""
class NothingListens(Refused, code=67): """The only address has refused connections for a second."""
class OutOfMemory(Refused, MemoryError, code=63): """Memory was refused. Nothing has changed."""
