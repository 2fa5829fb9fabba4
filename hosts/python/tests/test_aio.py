"""Tests of the client for asyncio with a real server."""

from __future__ import annotations

import asyncio
import inspect
import unittest
from collections.abc import Coroutine
from typing import Any

import krl
import krl.aio
from krl import Outcome, Row

from .serving import PATIENCE, Served

# Calls that wait for nobody: a task makes them itself.
AT_ONCE = {"cached", "epoch", "follow", "keep_all", "status", "changes", "free", "holds"}
# A constructor cannot be awaited.
NAMED_OTHERWISE = {"Reader": "connect_reader"}


def public(thing: object) -> set[str]:
    return {name for name in dir(thing) if not name.startswith("_")}


def parameters(call: Any) -> list[tuple[str, Any, Any]]:
    named = inspect.signature(call).parameters.values()
    return [(it.name, it.kind, it.default) for it in named]


class AsyncTest(Served):
    def run_within(self, task: Coroutine[Any, Any, None]) -> None:
        """Runs it, for as long as a test waits."""
        asyncio.run(asyncio.wait_for(task, PATIENCE))

    async def joined(self, number: int) -> krl.aio.Client:
        return await krl.aio.join(self.address, number, self.lock_file(number), PATIENCE)

    def test_calls_are_awaited(self) -> None:
        async def calls() -> None:
            async with await self.joined(0) as client:
                self.assertEqual(await client.insert(10, b"1"), Outcome.APPLIED)
                self.assertEqual(await client.put(10, value=b"2"), Outcome.APPLIED)
                self.assertEqual(await client.read(0, 20), [Row(10, b"2")])
                self.assertEqual([await client.get(10), await client.get(11)], [b"2", None])
                self.assertEqual(client.cached(0, 20), [Row(10, b"2")])
                self.assertEqual(await client.delete(11), Outcome.ABSENT)
                self.assertEqual(await client.set(10, b"2", timeout=PATIENCE), Outcome.APPLIED)
                async with await client.pin_for_update(0, 20) as pin:
                    self.assertEqual(pin.rows, [Row(10, b"2")])
                    self.assertEqual(await pin.put(10, b"3"), Outcome.APPLIED)
                    self.assertEqual(await pin.set(10, b"3"), Outcome.APPLIED)
                    self.assertTrue(pin.holds())
                with self.assertRaises(krl.PinIsVoid):
                    await pin.delete(10)
                await client.forget(0, 20)
                self.assertEqual(await client.read_once(0, 20), [Row(10, b"3")])
                self.assertIsNone(client.cached(0, 20))
                self.assertEqual((client.number, client.status()[0].epoch), (0, 1))
            with self.assertRaises(krl.Closed):
                await client.read()

        self.run_within(calls())

    def compare(self, name: str, call: Any, awaited: Any) -> None:
        """It takes the same words, and is awaited if it may wait."""
        self.assertEqual(callable(awaited), callable(call), name)
        if callable(call):
            self.assertEqual(parameters(awaited), parameters(call), name)
            self.assertEqual(inspect.iscoroutinefunction(awaited), name not in AT_ONCE, name)

    def test_each_call_is_there(self) -> None:
        async def compare() -> None:
            async with await self.joined(0) as client, await client.pin(0, 20) as pin:
                reader = await krl.aio.connect_reader(self.address)
                for tasks in (client, pin, reader):
                    threads = tasks.of_threads
                    self.assertEqual(public(tasks), public(threads) | {"of_threads"})
                    for name in public(threads):
                        self.compare(name, getattr(threads, name), getattr(tasks, name))

        self.run_within(compare())
        calls = {name for name in public(krl) if inspect.isfunction(getattr(krl, name))}
        for name in calls | NAMED_OTHERWISE.keys():
            awaited = getattr(krl.aio, NAMED_OTHERWISE.get(name, name))
            self.compare(name, getattr(krl, name), awaited)

    def test_the_calls_that_the_others_have_not_shown(self) -> None:
        async def calls() -> None:
            async with await self.joined(0) as one, await self.joined(1) as other:
                self.assertEqual(one.epoch(), 1)
                one.keep_all()
                with self.assertRaises(krl.Refused):
                    one.follow()  # it has no map
                one.timeout = PATIENCE / 2
                self.assertEqual(one.of_threads.timeout, PATIENCE / 2)
                rows = await one.read(0, 20)
                waiting = asyncio.create_task(one.wait_for_change(0, 20, rows, PATIENCE))
                await other.insert(10, b"1")
                self.assertTrue(await waiting)
            reader = await krl.aio.connect_reader(self.address, timeout=PATIENCE)
            self.assertEqual(await reader.read(), [Row(10, b"1")])
            self.assertEqual([await reader.get(10), await reader.get(11)], [b"1", None])

        self.run_within(calls())

    def test_tasks_go_on_while_one_waits(self) -> None:
        async def wait() -> None:
            async with await self.joined(0) as one, await self.joined(1) as other:
                async with await one.pin_for_write(0, 20):
                    with self.assertRaises(krl.TimedOut):
                        await other.read(0, 20, timeout=0.05)
                    with self.assertRaises(krl.TimedOut):
                        await other.pin_for_read(0, 20, timeout=0.05)
                    waiting = asyncio.create_task(other.read(0, 20))
                    self.assertEqual(await one.read(0, 20), [])
                    self.assertFalse(waiting.done())
                self.assertEqual(await waiting, [])

        self.run_within(wait())

    def test_a_pin_is_freed_by_a_call_that_is_not_awaited(self) -> None:
        async def free() -> None:
            async with await self.joined(0) as one, await self.joined(1) as other:
                pin = await one.pin_for_write(0, 20)
                pin.free()
                self.assertEqual(await other.read(0, 20), [])
                await (await one.pin_for_write(0, 20)).free()
                self.assertFalse(pin.holds())

        self.run_within(free())

    def test_changes_come_one_after_the_other(self) -> None:
        async def watch() -> None:
            async with await self.joined(0) as one, await self.joined(1) as other:
                with self.assertRaises(krl.BadRange):
                    await anext(one.changes(5, 5))
                changes = one.changes(0, 20)
                self.assertEqual(await anext(changes), [])
                later = asyncio.ensure_future(anext(changes))
                await other.insert(10, b"1")
                self.assertEqual(await later, [Row(10, b"1")])
                await one.leave()
                self.assertEqual([rows async for rows in changes], [])

        self.run_within(watch())

    def test_a_task_that_is_cancelled_leaves_no_pin(self) -> None:
        async def cancel() -> None:
            async with await self.joined(0) as one, await self.joined(1) as other:
                async with await one.pin_for_write(0, 20):
                    waiting = asyncio.create_task(other.pin_for_read(0, 20))
                    await asyncio.sleep(0)
                    waiting.cancel()
                    with self.assertRaises(asyncio.CancelledError):
                        await waiting
                self.assertEqual(await one.insert(10, b"1"), Outcome.APPLIED)

        self.run_within(cancel())


if __name__ == "__main__":
    unittest.main()
