"""The client for ``asyncio``: each call of ``krl``, awaited if it may wait. A thread waits in place
of the task. If a task is cancelled, its call continues: a write may be applied, and a pin that is
taken is freed at once."""

import asyncio
import functools
from collections.abc import AsyncIterator, Callable, Coroutine
from itertools import islice
from typing import Any, ParamSpec, Self, TypeVar, overload

from . import client as threads
from ._library import TOP, Row, workers
from .client import Seconds

P = ParamSpec("P")
T = TypeVar("T")
W = TypeVar("W")
Awaited = Callable[P, Coroutine[Any, Any, W]]


@overload
def _awaited(call: Callable[P, W]) -> Awaited[P, W]: ...
@overload
def _awaited(call: Callable[P, T], kind: Callable[[T], W]) -> Awaited[P, W]: ...
def _awaited(call: Callable[P, Any], kind: Callable[[Any], Any] | None = None) -> Awaited[P, Any]:
    """The same call, to be awaited: a thread makes it. ``kind`` is made of its answer."""

    @functools.wraps(call)
    async def awaited(*words: P.args, **named: P.kwargs) -> Any:
        future = workers[0].begin(functools.partial(call, *words, **named))
        answer = await asyncio.wrap_future(future)
        return answer if kind is None else kind(answer)

    return awaited


class _Calls:
    """The calls of both. ``of_threads`` is the same client or pin, whose calls are not awaited."""

    def __init__(self, of_threads: threads.Client | threads.Pin) -> None:
        self.of_threads = of_threads
        self.insert, self.put = _awaited(of_threads.insert), _awaited(of_threads.put)
        self.set, self.delete = _awaited(of_threads.set), _awaited(of_threads.delete)
        self.write_all = _awaited(of_threads.write_all)

    @property
    def timeout(self) -> float:
        """How many seconds a call waits that has no timeout of its own: a millisecond to a year."""
        return self.of_threads.timeout

    @timeout.setter
    def timeout(self, seconds: float) -> None:
        self.of_threads.timeout = seconds

    async def __aenter__(self) -> Self:
        return self

    async def __aexit__(self, *error: object) -> None:
        await _awaited(self.of_threads.__exit__)(*error)


class Pin(_Calls):
    """A pin. It is freed at the end of an ``async with``."""

    def __init__(self, pin: threads.Pin) -> None:
        super().__init__(pin)
        self.rows, self.holds, self._pin = pin.rows, pin.holds, pin

    def free(self) -> asyncio.Future[None]:
        """``krl.Pin.free``. It begins at once, whether it is awaited or not."""
        return asyncio.shield(asyncio.wrap_future(workers[0].begin(self._pin.free)))


class Client(_Calls):
    """A client. It leaves at the end of an ``async with``."""

    def __init__(self, client: threads.Client) -> None:
        super().__init__(client)
        self.number, self.cached, self.status = client.number, client.cached, client.status
        self.epoch, self.keep_all, self.follow = client.epoch, client.keep_all, client.follow
        self.forget, self.leave = _awaited(client.forget), _awaited(client.leave)
        self.reload_tls = _awaited(client.reload_tls)
        self.wait_for_change = _awaited(client.wait_for_change)
        self.pin, self.pin_for_read = _awaited(client.pin, Pin), _awaited(client.pin_for_read, Pin)
        self.pin_for_update = _awaited(client.pin_for_update, Pin)
        self.pin_for_write = _awaited(client.pin_for_write, Pin)
        self._client, self._read = client, _awaited(client.read)
        self.read_once = _awaited(client.read_once)

    async def read(self, start: int = 0, stop: int = TOP, timeout: Seconds = None) -> list[Row]:
        """``krl.Client.read``. What the cache has is read at once."""
        rows = self.cached(start, stop)
        return await self._read(start, stop, timeout) if rows is None else rows

    async def get(self, key: int, timeout: Seconds = None) -> bytes | None:
        """``krl.Client.get``."""
        rows = await self.read(*threads._range_of(key), timeout)
        return rows[0].value if rows else None

    async def changes(self, start: int = 0, stop: int = TOP) -> AsyncIterator[list[Row]]:
        """``krl.Client.changes``, for ``async for``."""
        self._client.changes(start, stop)  # checks the range
        looks = self._client._looks(start, stop)
        while looked := await _awaited(lambda: list(islice(looks, 1)))():
            if (rows := looked[0]) is not None:
                yield rows


class Reader:
    """A reader, as ``connect_reader`` returns it. ``of_threads`` is the same one, whose calls are
    not awaited."""

    def __init__(self, reader: threads.Reader) -> None:
        self.of_threads = reader
        self.read, self.get = _awaited(reader.read), _awaited(reader.get)


connect, join = _awaited(threads.connect, Client), _awaited(threads.join, Client)
join_map, evict = _awaited(threads.join_map, Client), _awaited(threads.evict)
connect_reader = _awaited(threads.Reader, Reader)
