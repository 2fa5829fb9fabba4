"""A server in a process of its own, for the tests.

`KRL_SERVER_PROGRAM` names the program `krl-server`, and `KRL_CLIENT_LIBRARY` the library.
"""

from __future__ import annotations

import os
import shutil
import signal
import socket
import subprocess
import sys
import tempfile
import time
import unittest
from collections.abc import Callable
from pathlib import Path

import krl

PATIENCE = float(os.environ.get("KRL_PATIENCE", "30"))
"""How long a test waits for what has to come."""


def program(variable: str) -> str:
    """The program that a variable names. Without it the test is skipped."""
    named = os.environ.get(variable)
    if named is None:
        raise unittest.SkipTest(f"{variable} names no program")
    return named


def until(holds: Callable[[], bool]) -> None:
    """Waits for a condition."""
    end = time.monotonic() + PATIENCE
    while not holds():
        if time.monotonic() > end:
            raise AssertionError("it does not come to hold")
        time.sleep(0.005)


def in_child(call: Callable[[], object]) -> str:
    """What a call returns in a child process, by ``repr``; or nothing if it raises or hangs."""
    reads, writes = os.pipe()
    child = os.fork()
    if child == 0:
        try:
            signal.alarm(int(PATIENCE))
            os.write(writes, repr(call()).encode())
        finally:
            os._exit(0)
    os.close(writes)
    with os.fdopen(reads) as came:
        text = came.read()
    os.waitpid(child, 0)
    return text


def free_port() -> int:
    """A port of the loopback at which nobody listens."""
    with socket.create_server(("127.0.0.1", 0)) as listener:
        port: int = listener.getsockname()[1]
        return port


def listens(address: str) -> bool:
    """Whether something listens at an address of a server."""
    if address.startswith("unix:"):
        with socket.socket(socket.AF_UNIX) as connection:
            return connection.connect_ex(address.removeprefix("unix:")) == 0
    host, port = address.removeprefix("tls:").split(":")
    with socket.socket() as connection:
        return connection.connect_ex((host, int(port))) == 0


def lines_of(*lines: str) -> list[str]:
    """The command by which another Python runs these lines."""
    return [sys.executable, "-c", "\n".join(("import krl, os", *lines))]


class Served(unittest.TestCase):
    """A test with a server at a Unix socket, in a folder of its own."""

    SERVED_BY: tuple[str, ...] = ("--lease", "off")
    """More words of the server."""

    def setUp(self) -> None:
        self.folder = Path(tempfile.mkdtemp(prefix="krl-"))
        self.addCleanup(shutil.rmtree, self.folder)
        self.address = f"unix:{self.folder / 'socket'}"
        self.server = self.start(*self.SERVED_BY)
        self.addCleanup(lambda: end(self.server))

    def start(
        self, *more: str, store: str = "store.db", at: str = ""
    ) -> subprocess.Popen[bytes]:
        """Starts a server, and waits until it takes connections."""
        address = at or self.address
        words = ["--listen", address, "--status", "off", "--log-level", "error", *more]
        variables = {name: text for name, text in os.environ.items() if name[:4] != "KRL_"}
        command = [program("KRL_SERVER_PROGRAM"), "serve", "--create", "--store"]
        server = subprocess.Popen([*command, str(self.folder / store), *words], env=variables)
        until(lambda: listens(address) or server.poll() is not None)
        return server

    def stop(self) -> None:
        """Kills the server."""
        end(self.server)

    def pause(self) -> None:
        """Stops the server's process. When this returns, none of its threads runs."""
        self.server.send_signal(signal.SIGSTOP)
        os.waitpid(self.server.pid, os.WUNTRACED)

    def resume(self) -> None:
        """Has a server that was paused continue."""
        self.server.send_signal(signal.SIGCONT)

    def start_again(self, store: str = "store.db") -> None:
        """Kills the server, and starts another one."""
        self.stop()
        self.server = self.start(*self.SERVED_BY, store=store)

    def join(self, number: int, timeout: float = PATIENCE) -> krl.Client:
        """A client, which leaves when the test ends."""
        client = krl.join(self.address, number, self.lock_file(number), timeout)
        self.addCleanup(leave, client)
        return client

    def lock_file(self, number: int) -> Path:
        """The lock file of a number."""
        return self.folder / f"client-{number}.lock"

    def end_without_leaving(self, number: int, *lines: str) -> None:
        """A process joins as the client of this number, does this, and is killed."""
        join = f"client = krl.join({self.address!r}, {number}, {str(self.lock_file(number))!r})"
        ended = subprocess.run(lines_of(join, *lines, "os.kill(os.getpid(), 9)"))
        self.assertEqual(ended.returncode, -9)


def end(server: subprocess.Popen[bytes]) -> None:
    """Kills a server."""
    server.kill()
    server.wait()


def leave(client: krl.Client) -> None:
    """Leaves, at once."""
    try:
        client.timeout = 0.001
        client.leave()
    except krl.Refused:
        pass  # It has left before, or its server is gone.
