"""Tests of a client with a real server."""

from __future__ import annotations

import gc
import shutil
import socket
import subprocess
import sys
import threading
import time
import unittest
from collections.abc import Callable
from typing import TypeVar

import krl
from krl import END, TOP, Outcome, Reason, Row

from .serving import PATIENCE, Served, end, lines_of, until

T = TypeVar("T")


class CallsTest(Served):
    def test_each_call_returns_what_it_describes(self) -> None:
        client = self.join(0)
        self.assertEqual(client.insert(15, b"one"), Outcome.APPLIED)
        self.assertEqual(client.insert(15, b"two"), Outcome.EXISTS)
        self.assertEqual(client.put(15, bytearray(b"two")), Outcome.APPLIED)
        self.assertEqual(client.put(16, b"two"), Outcome.ABSENT)
        self.assertEqual(client.delete(16), Outcome.ABSENT)
        self.assertEqual(client.insert(END - 1, bytes(32)), Outcome.APPLIED)
        self.assertEqual(client.insert(0, b""), Outcome.APPLIED)
        self.assertEqual(client.insert(16, b"a\0b"), Outcome.APPLIED)
        rows = [Row(0, b""), Row(15, b"two"), Row(16, b"a\0b"), Row(END - 1, bytes(32))]
        self.assertEqual(client.read(), rows)
        self.assertEqual(client.cached(), rows)
        self.assertEqual(client.cached(15, 16), [Row(15, b"two")])
        self.assertEqual(client.delete(15), Outcome.APPLIED)
        self.assertEqual(client.read(10, 16), [])
        self.assertEqual(client.read(7, 7), [])
        self.assertEqual(client.epoch(), 1)
        self.assertIn(f"0 of {self.address}", repr(client))

    def test_only_a_write_that_was_applied_is_true(self) -> None:
        self.assertTrue(Outcome.APPLIED)
        self.assertFalse(Outcome.EXISTS or Outcome.ABSENT or Outcome.FULL or Outcome.NOT_HELD)

    def test_many_rows_are_read_at_once(self) -> None:
        client = self.join(0)
        rows = [Row(3 * key, key.to_bytes(2, "big")) for key in range(300)]
        for row in rows:
            self.assertEqual(client.insert(row.key, row.value), Outcome.APPLIED)
        other = self.join(1)
        self.assertEqual(other.read(0, TOP), rows)
        self.assertEqual(other.cached(0, TOP), rows)
        self.assertEqual(other.cached(0, 30), rows[:10])

    def test_a_callback_gives_way(self) -> None:
        one, other = self.join(0), self.join(1)
        self.assertEqual(one.insert(10, b"1"), Outcome.APPLIED)
        self.assertEqual(one.read(0, 20), [Row(10, b"1")])
        self.assertEqual(other.put(10, b"2"), Outcome.APPLIED)
        self.assertIsNone(one.cached(0, 20))
        self.assertEqual(one.read(0, 20), [Row(10, b"2")])

    def test_a_key_is_set_whether_or_not_it_has_a_row(self) -> None:
        one, other = self.join(0), self.join(1)
        for value in (b"1", b"2"):
            self.assertEqual(one.set(10, value), Outcome.APPLIED)
            self.assertEqual(other.read(10, 11), [Row(10, value)])
        with one.pin_for_update(5, 30) as pin:
            self.assertEqual(pin.set(10, b"3"), Outcome.APPLIED)
            self.assertEqual(pin.set(20, b"4"), Outcome.APPLIED)
        with self.assertRaises(krl.PinIsVoid):
            pin.set(20, b"5")
        self.assertEqual(other.read(), [Row(10, b"3"), Row(20, b"4")])
        for bad in (-1, END):
            with self.assertRaises(krl.BadKey):
                one.set(bad, b"")

    def test_several_writes_are_made_in_one_wait(self) -> None:
        one, other = self.join(0), self.join(1)
        outcomes = one.write_all([
            krl.Insert(10, b"1"), krl.Insert(10, b"2"), krl.Put(11, b""), krl.Set(11, bytearray(b"3")),
            krl.Delete(12),
        ])
        E, N = Outcome.EXISTS, Outcome.ABSENT
        self.assertEqual(outcomes, [Outcome.APPLIED, E, N, Outcome.APPLIED, N])
        self.assertEqual(other.read(), [Row(10, b"1"), Row(11, b"3")])
        self.assertEqual(one.write_all([]), [])
        with one.pin_for_write(5, 30) as pin:
            self.assertEqual(pin.write_all([krl.Put(10, b"4"), krl.Delete(11)]), [Outcome.APPLIED] * 2)
        with self.assertRaises(krl.PinIsVoid) as refused:
            pin.write_all([krl.Put(10, b"5")])
        self.assertEqual(refused.exception.outcomes, [Outcome.NOT_MADE])
        self.assertEqual(other.read(), [Row(10, b"4")])
        with self.assertRaises(krl.BadKey):
            one.write_all([krl.Delete(10), krl.Delete(END)])
        with self.assertRaisesRegex(TypeError, "an Insert, Put, Set or Delete, not Write"):
            one.write_all([krl.client.Write(10, b"")])
        with self.assertRaises(krl.BadValue) as too_long:
            one.write_all([krl.Delete(10), krl.Put(10, bytes(33))])
        self.assertEqual(too_long.exception.outcomes, [Outcome.NOT_MADE] * 2)
        self.assertEqual(other.read(), [Row(10, b"4")])

    def test_an_error_reports_what_became_of_each_write(self) -> None:
        one, other = self.join(0), self.join(1, 3600)
        # The gap after the pinned range ends at the second row.
        one.write_all([krl.Insert(10, b"1"), krl.Insert(15, b"")])
        other.read(50, 60)
        with one.pin_for_write(5, 15), other.pin(50, 60), self.assertRaises(krl.TimedOut) as refused:
            # The client knows by itself that the first key has no row.
            other.write_all([krl.Delete(55), krl.Put(10, b"2"), krl.Delete(56)], 0.05)
        # The second one waited for its lock.
        wanted = [Outcome.ABSENT, Outcome.NOT_MADE, Outcome.NOT_MADE]
        self.assertEqual(refused.exception.outcomes, wanted)
        self.assertIsInstance(refused.exception, krl.NotSent)
        self.assertFalse(refused.exception.is_unknown_outcome)

    def test_a_call_waits_for_a_time_of_its_own(self) -> None:
        one, other = self.join(0), self.join(1, 3600)
        one.insert(10, b"1")
        begun = time.monotonic()
        with one.pin_for_write(5, 15), other.pin(50, 60) as own:
            calls: list[Callable[[], object]] = [lambda: other.read(0, 20, timeout=0.05)]
            calls += [lambda: other.insert(11, b"", timeout=0.05), lambda: other.set(10, b"", 0.05)]
            calls += [lambda: other.put(10, b"2", timeout=0), lambda: other.delete(10, 0.05)]
            calls += [lambda: other.pin_for_read(5, 15, 0.05), lambda: own.set(10, b"", 0.05)]
            calls += [lambda: own.put(10, b"", 0.05), lambda: own.delete(10, timeout=0.05)]
            for call in calls:
                with self.assertRaises(krl.TimedOut):
                    call()
        self.assertLess(time.monotonic() - begun, other.timeout)
        self.assertEqual(other.timeout, 3600)
        other.timeout = PATIENCE
        self.assertEqual([row.key for row in other.read(0, 20, timeout=PATIENCE)], [10])
        for timeout in (-1.0, float("nan")):
            with self.assertRaisesRegex(ValueError, "a timeout is"):
                other.insert(20, b"", timeout)

    def test_a_pin_has_the_timeout_of_its_client_and_then_one_of_its_own(self) -> None:
        one, other = self.join(0), self.join(1, 3600)
        one.insert(10, b"1")
        with one.pin_for_write(5, 15), other.pin(50, 60) as own:
            self.assertEqual(own.timeout, 3600)
            own.timeout = 0.05
            with self.assertRaises(krl.TimedOut):
                own.put(10, b"2")
        self.assertEqual(other.timeout, 3600)
        other.timeout = -1.0
        with self.assertRaisesRegex(ValueError, "a timeout is"):
            other.put(10, b"2")
        other.timeout = PATIENCE

    def test_what_a_client_is_shown_as(self) -> None:
        client = self.join(7)
        self.assertEqual(client.number, 7)
        self.assertEqual(repr(client), f"<krl.Client 7 of {self.address}>")

    def test_what_is_forgotten_is_not_cached(self) -> None:
        client = self.join(0)
        client.read(0, 20)
        client.forget(5, 6)
        self.assertIsNone(client.cached(0, 20))
        self.assertEqual(client.cached(6, 20), [])
        client.forget(5, 5)

    def test_a_key_is_read(self) -> None:
        client = self.join(0)
        client.insert(5, b"five")
        self.assertEqual([client.get(key) for key in (4, 5, 6)], [None, b"five", None])
        self.assertEqual(client.cached(5, 6), [Row(5, b"five")])
        for key in (-1, 2**63 - 1, 2**64 + 5):
            with self.assertRaises(krl.BadKey):
                client.get(key)

    def test_a_range_is_watched(self) -> None:
        watcher, writer = self.join(0), self.join(1)
        with self.assertRaises(krl.BadRange):
            watcher.changes(5, 5)
        changes = watcher.changes(0, 20)
        self.assertEqual(next(changes), [])
        self.assertFalse(watcher.wait_for_change(0, 20, [], 0.01))
        self.assertTrue(watcher.wait_for_change(0, 20, [Row(1, b"")], PATIENCE))
        writes = threading.Thread(target=self._write, args=(writer,))
        writes.start()
        seen = next(changes)
        while seen != [Row(10, b"3")]:
            seen = next(changes)
        writes.join()
        watcher.leave()
        self.assertEqual(list(changes), [])

    @staticmethod
    def _write(client: krl.Client) -> None:
        client.insert(10, b"1")
        for value in (b"2", b"3"):
            client.put(10, value)

    def test_threads_share_a_client(self) -> None:
        client = self.join(0)
        threads = [threading.Thread(target=self._count_up, args=(client, n)) for n in range(4)]
        for thread in threads:
            thread.start()
        for thread in threads:
            thread.join()
        self.assertEqual(client.read(), [Row(n, b"19") for n in range(4)])

    def _count_up(self, client: krl.Client, key: int) -> None:
        self.assertEqual(client.insert(key, b"0"), Outcome.APPLIED)
        for count in range(1, 20):
            self.assertEqual(client.put(key, str(count).encode()), Outcome.APPLIED)
            self.assertEqual(client.read(key, key + 1), [Row(key, str(count).encode())])

    def test_threads_that_read_the_cache_have_rooms_of_their_own(self) -> None:
        client = self.join(0)
        for key in range(4):
            client.insert(key, str(key).encode())
        client.read(0, 4)
        wrong: list[object] = []

        def reads(key: int) -> None:
            for _ in range(5000):
                rows = client.cached(key, key + 1)
                if rows != [Row(key, str(key).encode())]:
                    wrong.append(rows)

        interval = sys.getswitchinterval()
        self.addCleanup(sys.setswitchinterval, interval)
        sys.setswitchinterval(1e-6)
        threads = [threading.Thread(target=reads, args=(key,)) for key in range(4)]
        for thread in threads:
            thread.start()
        for thread in threads:
            thread.join()
        self.assertEqual(wrong, [])


class PinsTest(Served):
    def test_a_pin_keeps_a_writer_waiting_until_it_is_free(self) -> None:
        one, other = self.join(0), self.join(1)
        other.insert(10, b"1")
        with one.pin(5, 15) as pin:
            one.read(0, 20)
            other.timeout = 0.3
            with self.assertRaises(krl.NotSent) as raised:
                other.put(10, b"2")
            self.assertFalse(raised.exception.is_unknown_outcome)
            with self.assertRaises(krl.Pinned) as pinned:
                one.forget(10, 11)
            self.assertFalse(pinned.exception.is_unknown_outcome)
            self.assertEqual(one.cached(5, 15), [Row(10, b"1")])
            self.assertTrue(pin.holds())
        other.timeout = PATIENCE
        self.assertEqual(other.put(10, b"3"), Outcome.APPLIED)
        self.assertIsNone(one.cached(5, 15))
        self.assertFalse(pin.holds())

    def test_a_write_that_is_bound_to_a_pin_is_made_while_the_pin_holds_or_never(self) -> None:
        one, other = self.join(0), self.join(1)
        with one.pin_for_update(5, 15) as pin:
            self.assertEqual(pin.rows, [])
            self.assertEqual(pin.insert(10, b"1"), Outcome.APPLIED)
            self.assertEqual(pin.put(10, b"2"), Outcome.APPLIED)
            self.assertEqual(pin.delete(30), Outcome.ABSENT)
            with self.assertRaises(krl.BadKey):
                pin.put(-1, b"")
        writes: list[Callable[[], object]] = [lambda: pin.put(10, b"3"), lambda: pin.delete(10)]
        for write in writes:
            with self.assertRaises(krl.PinIsVoid) as raised:
                write()
            self.assertFalse(raised.exception.is_unknown_outcome)
        self.assertEqual(other.read(0, 20), [Row(10, b"2")])

    def test_pins_read_what_they_pin(self) -> None:
        one, other = self.join(0), self.join(1)
        one.insert(10, b"1")
        for pin_for in (other.pin_for_read, other.pin_for_update, other.pin_for_write):
            with pin_for(5, 15) as pin:
                self.assertEqual(pin.rows, [Row(10, b"1")])
        one.timeout = 0.3
        with other.pin_for_write(5, 15):
            with self.assertRaises(krl.TimedOut):
                one.read(5, 15)

    def test_there_are_eight_pins(self) -> None:
        client = self.join(0)
        pins = [client.pin(place, place + 1) for place in range(8)]
        with self.assertRaises(krl.TooManyPins):
            client.pin(9, 10)
        pins[3].free()
        pins[3].free()
        client.pin(9, 10).free()

    def test_a_pin_that_nobody_has_is_free(self) -> None:
        client = self.join(0)
        client.pin(5, 15)
        gc.collect()
        client.forget(5, 15)

    def test_a_write_is_bound_to_no_pin_of_before_the_store_went_back(self) -> None:
        client = self.join(0)
        self.keep_an_older_copy()
        client.insert(10, b"1")
        pin = client.pin(5, 15)
        self.assertEqual(pin.put(10, b"2"), Outcome.APPLIED)
        self.start_again("older.db")
        until(lambda: client.cached(5, 15) is None)
        with self.assertRaises(krl.PinIsVoid):
            self.when_joined(lambda: pin.insert(10, b"3"))
        self.assertFalse(pin.holds())
        self.assertEqual(self.when_joined(lambda: client.read(0, 20)), [])
        with client.pin(5, 15) as later:
            self.assertEqual(later.insert(10, b"4"), Outcome.APPLIED)
        pin.free()
        self.assertEqual(client.read(0, 20), [Row(10, b"4")])

    @staticmethod
    def when_joined(call: Callable[[], T]) -> T:
        """Makes a call again that comes while the client joins the older store."""
        while True:
            try:
                return call()
            except (krl.StoreWentBack, krl.NotSent):
                time.sleep(0.005)

    def keep_an_older_copy(self) -> None:
        """Copies the store as it is now, for a server that starts on an older one."""
        self.stop()
        for name in ("", "-wal"):
            shutil.copy(self.folder / f"store.db{name}", self.folder / f"older.db{name}")
        self.server = self.start(*self.SERVED_BY)


class ServersTest(Served):
    def test_a_server_that_is_killed(self) -> None:
        client = self.join(0)
        client.insert(10, b"1")
        rows = client.read(0, 20)
        self.stop()
        self.assertEqual(client.cached(0, 20), rows)
        client.timeout = 0.2
        begun = time.monotonic()
        with self.assertRaises(krl.TimedOut):
            client.put(10, b"none")
        self.assertLess(time.monotonic() - begun, PATIENCE)
        self.server = self.start(*self.SERVED_BY)
        client.timeout = PATIENCE
        self.assertEqual(client.timeout, PATIENCE)
        self.assertEqual(client.put(10, b"2"), Outcome.APPLIED)
        self.assertEqual(client.read(0, 20), [Row(10, b"2")])
        self.assertEqual(client.epoch(), 2)

    def test_a_write_that_is_sent_and_not_answered_may_have_been_applied(self) -> None:
        client = self.join(0)
        client.insert(10, b"1")
        self.pause()
        with self.assertRaises(krl.TimedOut) as raised:
            client.put(10, b"2", timeout=0.3)
        self.assertNotIsInstance(raised.exception, krl.NotSent)
        self.assertTrue(raised.exception.is_unknown_outcome)
        self.assertEqual(raised.exception.outcomes, [Outcome.UNKNOWN])
        self.resume()
        self.assertEqual(client.put(10, b"3"), Outcome.APPLIED)

    def test_a_server_that_waits_for_another_client_reports_it_until_that_is_evicted(self) -> None:
        client = self.join(0)
        client.insert(5, b"1")
        # A server that is there when the process ends evicts it at once.
        self.end_without_leaving(7, f"os.kill({self.server.pid}, 9)")
        self.start_again()
        client.timeout = 0.5

        def learns_the_reason() -> bool:
            with self.assertRaises(krl.TimedOut) as raised:
                client.put(5, b"2")
            error = raised.exception
            return isinstance(error, krl.Unserved | krl.NotSent) and error.reason is Reason.MISSING

        until(learns_the_reason)
        krl.evict(self.address, 7, self.lock_file(7))
        client.timeout = PATIENCE
        self.assertEqual(client.put(5, b"3"), Outcome.APPLIED)

    def test_a_process_that_ends_leaves(self) -> None:
        join = f"client = krl.join({self.address!r}, 7, {str(self.lock_file(7))!r}, {PATIENCE})"
        # A thread that does not end keeps the client from being collected.
        sleep = "threading.Thread(target=time.sleep, args=(3600,), kwargs={}, daemon=True)"
        keep = ("import threading, time", f"thread = {sleep}", "thread.client = client")
        lines = ("client.read()", *keep, "thread.start()", "del client, thread")
        subprocess.run(lines_of(join, *lines), check=True)
        self.start_again()
        self.assertEqual(self.join(0).insert(5, b"1"), Outcome.APPLIED)

    def test_what_a_process_does_as_it_ends_uses_its_client(self) -> None:
        # It is registered before the client is there.
        lines = ("import atexit", "atexit.register(lambda: print(client.insert(5, b'1').name))")
        join = f"client = krl.join({self.address!r}, 7, {str(self.lock_file(7))!r}, {PATIENCE})"
        ended = subprocess.run(lines_of(*lines, join), capture_output=True, text=True)
        self.assertEqual((ended.stdout, ended.stderr), ("APPLIED\n", ""))
        self.assertEqual(self.join(0).read(), [Row(5, b"1")])

    def test_a_client_that_nobody_has_leaves(self) -> None:
        krl.join(self.address, 7, self.lock_file(7), PATIENCE).read()
        gc.collect()
        self.assertEqual(self.join(0).insert(5, b"1"), Outcome.APPLIED)
        self.join(7)

    def test_another_store_is_noticed_and_not_joined(self) -> None:
        client = self.join(0)
        client.insert(10, b"1")
        self.assertEqual(client.read(0, 20), [Row(10, b"1")])
        self.start_again("other.db")
        until(lambda: client.cached(0, 20) is None)
        client.timeout = 0.5

        def is_refused() -> bool:
            with self.assertRaises(krl.TimedOut) as raised:
                client.read(0, 20)
            error = raised.exception
            return isinstance(error, krl.Unserved) and error.reason is Reason.OTHER_STORE

        until(is_refused)


class LeasesTest(Served):
    SERVED_BY = ("--lease", "1s")

    def test_a_process_that_is_killed_keeps_nobody_waiting(self) -> None:
        self.end_without_leaving(7, "client.read()")
        client = self.join(0)
        self.assertEqual(client.insert(5, b"1"), Outcome.APPLIED)
        (status,) = client.status()
        self.assertTrue(status.is_connected)
        self.assertGreater(status.incarnation, 0)
        self.assertIsNotNone(status.lease_left)
        self.assertLessEqual(status.lease_left or 0, 1)

    def test_a_number_that_another_process_has_is_not_joined(self) -> None:
        client = self.join(0)
        with self.assertRaises(krl.JoinError) as raised:
            another = self.folder / "another.lock"
            krl.join(self.address, 0, another, PATIENCE, wait_if_in_use=0.3)
        cause = raised.exception.__cause__
        self.assertIsInstance(cause, krl.Unserved)
        self.assertIs(getattr(cause, "reason", None), Reason.LEASE_RUNS)
        self.assertEqual(client.insert(10, b"1"), Outcome.APPLIED)

    def test_a_number_that_another_machine_has_is_left_for_the_next_one(self) -> None:
        there = self.folder / "another machine"
        there.mkdir()
        with krl.join(self.address, 3, there / "client-3.lock", PATIENCE) as first:
            # The server takes no second process while the first one's lease runs.
            with krl.join(self.address, range(3, 5), self.folder, PATIENCE) as second:
                self.assertEqual((first.number, second.number), (3, 4))

    def test_a_client_whose_lease_has_ended_answers_nothing(self) -> None:
        client = self.join(0)
        client.insert(10, b"1")
        with client.pin_for_read(0, 20) as pin:
            self.assertEqual(client.cached(0, 20), [Row(10, b"1")])
            self.pause()
            until(lambda: client.cached(0, 20) is None)
            self.resume()
            with self.assertRaises(krl.PinIsVoid):
                pin.put(10, b"2")
        self.assertEqual(client.read(0, 20), [Row(10, b"1")])


class BadInputTest(Served):
    def test_bad_keys_ranges_and_values_are_reported(self) -> None:
        client = self.join(0)
        ranges = ((5, 4), (-1, 4), (0, TOP + 1), (1 << 64, 1 << 64), ("a", "b"), (1.0, 2))
        for start, stop in ranges:
            is_integer = isinstance(start, int)
            calls: list[Callable[..., object]] = [client.read, client.cached, client.forget]
            calls += [client.pin, client.pin_for_read, client.changes]
            calls += [lambda start, stop: client.wait_for_change(start, stop, [], 1)]
            for call in calls:
                message = "0 <= start <= stop <= 2.63" if is_integer else "as an integer"
                with self.assertRaisesRegex(krl.BadRange if is_integer else TypeError, message):
                    call(start, stop)
        with self.assertRaises(krl.BadRange):
            client.pin(5, 5)
        for key in (-1, END, 1 << 64):
            with self.assertRaisesRegex(krl.BadKey, "a key is from 0 to 2.63 - 2, not"):
                client.put(key, b"")
        for word in ("a", None, 1.5):
            with self.assertRaisesRegex(TypeError, "as an integer"):
                client.put(word, b"")  # type: ignore[arg-type]
        with self.assertRaisesRegex(krl.BadValue, "at most 32 bytes, and this one 33"):
            client.insert(5, bytes(33))
        for value in ("text", 5, None):
            with self.assertRaisesRegex(TypeError, "bytes-like"):
                client.insert(5, value)  # type: ignore[arg-type]
        self.assertEqual(client.read(), [])

    def test_a_client_that_cannot_join_learns_why(self) -> None:
        for number in (-1, 64, 1 << 32):
            with self.assertRaisesRegex(ValueError, "a client's number is 0 to 63, not"):
                krl.join(self.address, number, "none.lock")
        for word in ("3", 1.5, None):
            with self.assertRaisesRegex(TypeError, "as an integer"):
                krl.join(self.address, word, "none.lock")  # type: ignore[arg-type]
        for timeout in (-1.0, float("nan")):
            with self.assertRaisesRegex(ValueError, "a timeout is"):
                krl.join(self.address, 0, "none.lock", timeout)
        for servers in ("here", "10.0.0.1:7400", "one\0two"):
            with self.assertRaises(krl.BadOption):
                krl.join(servers, 0, "none.lock")
        with self.assertRaisesRegex(krl.BadOption, "nowhere"):
            krl.join_map("/nowhere/map.toml", 0, self.folder)
        self.join(0)
        with self.assertRaises(krl.LockFileTaken):
            krl.join(self.address, 0, self.lock_file(0))
        with self.assertRaisesRegex(krl.JoinError, "did not answer in time") as raised:
            krl.join(f"unix:{self.folder}/none", 1, self.lock_file(1), 0.5)
        self.assertIsInstance(raised.exception.__cause__, krl.TimedOut)
        with self.assertRaisesRegex(krl.JoinError, f"nothing listens at unix:{self.folder}/none"):
            krl.join(f"unix:{self.folder}/none", 1, self.lock_file(1), PATIENCE)
        krl.join(self.address, 1, self.lock_file(1), PATIENCE).leave()

    def test_what_answers_at_the_address_may_be_no_krl_server(self) -> None:
        def answer(listener: socket.socket) -> None:
            for _ in range(2):
                connection, _ = listener.accept()
                with connection:
                    connection.sendall(b"HTTP/1.1 400 Bad Request\r\n\r\n")
                    connection.shutdown(socket.SHUT_WR)
                    while connection.recv(4096):
                        pass

        with socket.create_server(("127.0.0.1", 0)) as listener:
            threading.Thread(target=answer, args=[listener], daemon=True).start()
            address = f"127.0.0.1:{listener.getsockname()[1]}"
            with self.assertRaisesRegex(krl.BadOption, f"{address} is not a krl server"):
                krl.join(address, 1, self.lock_file(1), PATIENCE)

    def test_the_first_free_number_of_several_is_taken(self) -> None:
        clients = [krl.join(self.address, range(3, 5), self.folder, PATIENCE) for _ in range(2)]
        self.assertEqual([client.number for client in clients], [3, 4])
        with self.assertRaises(krl.LockFileTaken):
            krl.join(self.address, [4, 3], self.folder)
        clients[0].leave()
        with krl.join(self.address, range(3, 5), self.folder, PATIENCE) as client:
            self.assertEqual((client.number, client.timeout), (3, PATIENCE))
        clients[1].leave()
        for bad in ([], [64], [3, -1]):
            with self.assertRaises(krl.BadOption):
                krl.join(self.address, bad, self.folder)
        with self.assertRaises(krl.LockFileError) as raised:
            krl.join(self.address, range(2), self.folder / "none")
        self.assertNotIsInstance(raised.exception, krl.LockFileTaken)


if __name__ == "__main__":
    unittest.main()
