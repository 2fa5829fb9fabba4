"""Tests of a client in its process: signals, `fork`, and its end."""

from __future__ import annotations

import gc
import os
import signal
import subprocess
import sys
import threading
from collections.abc import Callable
from pathlib import Path
from unittest.mock import patch

import krl
from krl import Outcome, Row

from .serving import PATIENCE, Served, free_port, in_child, lines_of, until

INTERRUPTED = Path(__file__).with_name("interrupted.py")


class SignalsTest(Served):
    def test_other_threads_go_on_while_a_call_waits(self) -> None:
        one, other = self.join(0), self.join(1)
        with one.pin_for_write(0, 20) as pin:
            waiting = threading.Thread(target=other.read, args=(0, 20))
            waiting.start()
            until(lambda: waiting.is_alive() and other.cached(30, 40) is None)
            pin.free()
        waiting.join(PATIENCE)
        self.assertFalse(waiting.is_alive())

    def test_ctrl_c_ends_a_wait(self) -> None:
        with self.join(0).pin_for_write(0, 20):
            words = [self.address, str(self.lock_file(1))]
            with subprocess.Popen(
                [sys.executable, str(INTERRUPTED), *words], stdout=subprocess.PIPE, text=True
            ) as process:
                timer = threading.Timer(PATIENCE, process.kill)
                timer.start()
                assert process.stdout is not None
                self.assertEqual(process.stdout.read(), "interrupted\n")
                timer.cancel()


class NumbersTest(Served):
    SERVED_BY = ("--lease", "60s")

    def test_connect_takes_a_number_that_nobody_has(self) -> None:
        # Each folder stands for that of another user or machine.
        with patch.dict(os.environ, XDG_STATE_HOME=str(self.folder / "here")):
            first, second = (krl.connect(self.address, PATIENCE) for _ in range(2))
        with patch.dict(os.environ, XDG_STATE_HOME=str(self.folder / "there")):
            third = krl.connect(self.address, PATIENCE)
        self.assertEqual([it.number for it in (first, second, third)], [0, 1, 2])
        for client in (first, second, third):
            client.leave()


class ForkTest(Served):
    def test_a_client_does_not_survive_a_fork(self) -> None:
        client, other = self.join(0), self.join(1)
        other.insert(10, b"1")
        self.assertEqual(client.read(0, 20), [Row(10, b"1")])
        pin = client.pin(0, 5)

        def looks() -> list[str]:
            results = []
            calls: list[Callable[[], object]] = [client.cached, client.epoch, pin.holds]
            calls += [lambda: client.pin(6, 7), lambda: client.read(0, 20), client.leave]
            for call in calls:
                try:
                    results.append(repr(call()))
                except krl.Forked as forked:
                    results.append(str(forked))
            return results

        message = "A client does not survive a fork: join in the child process."
        self.assertEqual(in_child(looks), repr(6 * [message]))
        pin.free()
        self.assertEqual(client.cached(0, 20), [Row(10, b"1")])
        self.assertEqual(other.put(10, b"2"), Outcome.APPLIED)
        self.assertEqual(client.read(0, 20), [Row(10, b"2")])

    def test_a_child_joins_under_another_number(self) -> None:
        client = self.join(0)
        # The parent has threads that wait for it, of which the child has none.
        client.insert(10, b"1")

        def joins() -> object:
            with krl.join(self.address, 1, self.lock_file(1), PATIENCE) as own:
                return own.read(0, 20)

        self.assertEqual(in_child(joins), repr([Row(10, b"1")]))

    def test_a_child_that_lives_keeps_no_number_of_a_client_that_has_left(self) -> None:
        client = self.join(0)
        reads, writes = os.pipe()
        child = os.fork()
        if child == 0:
            os.close(writes)
            os.read(reads, 1)
            os._exit(0)
        client.leave()
        self.join(0)
        os.close(writes)
        os.close(reads)
        os.waitpid(child, 0)

    def test_a_child_that_ends_leaves_its_parent_joined(self) -> None:
        client, other = self.join(0), self.join(1)
        client.insert(10, b"1")
        with client.pin_for_read(0, 20) as pin:
            child = os.fork()
            if child == 0:
                try:
                    pin.free()
                    client._end()
                    del client, pin
                    gc.collect()
                finally:
                    os._exit(0)
            os.waitpid(child, 0)
            self.assertTrue(pin.holds())
        self.assertEqual(other.put(10, b"2"), Outcome.APPLIED)
        self.assertEqual(client.read(0, 20), [Row(10, b"2")])


class EndedTest(Served):
    """Processes that end while they keep rows: no write waits for them, also without leases."""

    HANDLER = "signal.signal(signal.SIGTERM, lambda *_: sys.exit())"

    def end_by(self, by: signal.Signals, handler: str = "", address: str = "") -> int:
        """The status of a process that keeps rows, and is ended by this signal."""
        # A shell has what it runs in the background ignore SIGINT.
        interrupts = "signal.signal(signal.SIGINT, signal.default_int_handler)"
        join = f"client = krl.join({address or self.address!r}, 0, {str(self.lock_file(0))!r})"
        keep = ("client.read(0, 20)", "print('keeps', flush=True)", f"time.sleep({PATIENCE})")
        lines = lines_of("import signal, sys, time", interrupts, handler, join, *keep)
        pipe, nowhere = subprocess.PIPE, subprocess.DEVNULL
        with subprocess.Popen(lines, stdout=pipe, stderr=nowhere, text=True) as process:
            assert process.stdout is not None
            self.assertEqual(process.stdout.readline(), "keeps\n")
            process.send_signal(by)
            return process.wait(PATIENCE)

    def test_a_process_of_this_machine_that_has_ended_delays_no_write(self) -> None:
        other = self.join(1)
        other.insert(10, b"0")
        for by in (signal.SIGKILL, signal.SIGTERM, signal.SIGINT):
            with self.subTest(by=by.name):
                self.assertEqual(self.end_by(by), -by)
                self.assertEqual(other.put(10, by.name.encode()), Outcome.APPLIED)

    def test_a_process_that_handles_sigterm_leaves_over_tcp_too(self) -> None:
        address = f"127.0.0.1:{free_port()}"
        self.stop()
        with self.start(*self.SERVED_BY, at=address) as server:
            self.assertEqual(self.end_by(signal.SIGTERM, self.HANDLER, address), 0)
            with krl.join(address, 1, self.lock_file(1), PATIENCE) as other:
                self.assertEqual(other.insert(10, b"0"), Outcome.APPLIED)
            server.kill()


class LeavingTest(Served):
    def test_who_leaves_keeps_nothing(self) -> None:
        other = self.join(1)
        with krl.join(self.address, 0, self.lock_file(0), PATIENCE) as client:
            client.read()
        self.assertEqual(other.insert(10, b"1"), Outcome.APPLIED)
        calls: list[Callable[[], object]] = [client.read, client.leave, client.epoch]
        calls += [client.forget, lambda: client.put(10, b""), lambda: client.pin(5, 6)]
        calls += [lambda: client.wait_for_change(0, 5, [], 1), client.reload_tls, client.keep_all]
        for call in calls:
            with self.assertRaisesRegex(krl.Closed, "The client has left"):
                call()
        self.assertIsNone(client.cached())
        self.join(0)

    def test_a_call_that_waits_ends_when_another_thread_leaves(self) -> None:
        client, other = self.join(0), self.join(1)
        errors: list[BaseException] = []

        def waits() -> None:
            try:
                client.read(0, 20)
            except krl.Refused as error:
                errors.append(error)

        with other.pin_for_write(0, 20):
            waiting = threading.Thread(target=waits)
            waiting.start()
            client.leave()
            waiting.join(PATIENCE)
        self.assertEqual([type(error) for error in errors], [krl.Closed])
        self.join(0)

    def test_an_error_goes_through_a_with(self) -> None:
        with self.assertRaises(ZeroDivisionError):
            with krl.join(self.address, 0, self.lock_file(0), PATIENCE) as client:
                self.stop()
                client.timeout = 0.2
                raise ZeroDivisionError
