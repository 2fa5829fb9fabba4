"""Tests of a client of several servers, each with a part of the keys."""

from __future__ import annotations

import asyncio
import time
from concurrent.futures import ThreadPoolExecutor

import krl
import krl.aio
from krl import Outcome, Row

from .serving import PATIENCE, Served, end


class ShardsTest(Served):
    SERVED_BY = ("--lease", "off", "--shard", "0..100@1")

    def setUp(self) -> None:
        super().setUp()
        second = f"unix:{self.folder / 'second'}"
        self.second = self.start("--lease", "off", "--shard", "100..@1", store="second.db", at=second)
        self.addCleanup(end, self.second)
        self.map = self.folder / "map.toml"
        shards = ((0, self.address), (100, second))
        parts = [f'[[shard]]\nfirst = {first}\nservers = "{at}"\n' for first, at in shards]
        self.map.write_text("version = 1\n" + "".join(parts))

    def move_the_second(self) -> None:
        """Starts a server over a new store, which the next map has in place of the second one."""
        third = self.folder / "third"
        where = {"store": "third.db", "at": f"unix:{third}"}
        self.addCleanup(end, self.start("--lease", "off", "--shard", "100..@2", **where))
        text = self.map.read_text().replace("version = 1", "version = 2")
        text = text.replace("\n[[shard]]\nfirst = 100", "\nsince = 1\n[[shard]]\nfirst = 100")
        (self.folder / "next").write_text(text.replace(str(self.folder / "second"), str(third)))
        (self.folder / "next").rename(self.map)

    def test_a_client_reads_over_the_bound_of_two_shards(self) -> None:
        with krl.join_map(self.map, 0, self.folder, PATIENCE) as client:
            for key in (99, 100):
                self.assertEqual(client.insert(key, b"1"), Outcome.APPLIED)
            self.assertEqual(client.read(90, 110), [Row(99, b"1"), Row(100, b"1")])
            self.assertEqual([status.shard for status in client.status()], [0, 1])
            with client.pin_for_update(99, 101) as pin:
                self.assertEqual(pin.put(100, b"2"), Outcome.APPLIED)
            self.stop()
            client.timeout = 0.3
            with self.assertRaises(krl.TimedOut) as raised:
                client.put(99, b"3")
            self.assertEqual(raised.exception.shard, 0)
            self.server = self.start(*self.SERVED_BY)
            client.timeout = PATIENCE

    def test_a_client_follows_its_map(self) -> None:
        with krl.join_map(self.map, 0, self.folder, PATIENCE) as client:
            client.follow()
            before = client.status()
            self.move_the_second()
            end_of_patience = time.monotonic() + PATIENCE
            while client.status()[1].incarnation == before[1].incarnation:
                self.assertLess(time.monotonic(), end_of_patience)
                self.assertEqual(client.set(150, b"1"), Outcome.APPLIED)
            self.assertEqual(client.set(150, b"2"), Outcome.APPLIED)
            self.assertEqual(client.read(), [Row(150, b"2")])
            self.assertEqual(client.status()[0].incarnation, before[0].incarnation)

    def test_a_client_of_tasks_follows_its_map(self) -> None:
        async def follow() -> None:
            async with await krl.aio.join_map(self.map, 0, self.folder, PATIENCE) as client:
                client.follow()
                before = client.status()
                await asyncio.to_thread(self.move_the_second)
                while client.status()[1].incarnation == before[1].incarnation:
                    await asyncio.sleep(0.01)
                self.assertEqual(await client.set(150, b"1"), Outcome.APPLIED)

        asyncio.run(asyncio.wait_for(follow(), PATIENCE))

    def test_a_reader_follows_its_map(self) -> None:
        reader = krl.Reader(map=self.map, timeout=PATIENCE)
        self.move_the_second()
        end(self.second)
        self.assertEqual(reader.read(), [])

    def test_one_that_starts_while_its_shard_changes_waits_for_the_server(self) -> None:
        """For longer than a client waits where nothing listens."""
        end(self.second)
        with ThreadPoolExecutor() as threads:
            joins = threads.submit(krl.join_map, self.map, 0, self.folder, PATIENCE)
            connects = threads.submit(krl.Reader, map=self.map, timeout=PATIENCE)
            time.sleep(2)
            self.move_the_second()
            with joins.result() as client:
                self.assertEqual(client.read(), connects.result().read())

    def test_a_client_of_some_keys_joins_their_shards_only(self) -> None:
        self.stop()
        with krl.join_map(self.map, 0, self.folder, PATIENCE, keys=(100, 200)) as client:
            self.assertEqual([status.shard for status in client.status()], [1])

    def test_a_client_of_all_keys_is_refused_by_a_shard(self) -> None:
        with self.assertRaisesRegex(krl.JoinError, "serves only 0..100@1") as raised:
            self.join(0)
        self.assertIsInstance(raised.exception.__cause__, krl.OtherShard)
