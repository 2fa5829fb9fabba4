#!/usr/bin/env python3
"""A reader or a writer of the drive whose client is the program `krl-client`, by lines of its input.

    drive_command_line.py reader|writer NUMBER SERVERS FOLDER

`KRL_CLIENT_PROGRAM` names the program. It ends by SIGKILL if this process does. After a line that
fails `krl-client` ends, and the next line is that of another process.
"""

from __future__ import annotations

import ctypes
import json
import os
import signal
import subprocess
import sys
from pathlib import Path
from typing import Any

sys.path.insert(0, str(Path(__file__).resolve().parent.parent))

import krl  # noqa: E402
from tests.drive_client import TIMEOUT, main, tls_of  # noqa: E402

OUTCOMES = {
    "applied": krl.Outcome.APPLIED,
    "exists": krl.Outcome.EXISTS,
    "absent": krl.Outcome.ABSENT,
    "full": krl.Outcome.FULL,
}
UNANSWERED = (3, 4)
"""The statuses of a line that was not answered in time, and of a client that did not join."""
PR_SET_PDEATHSIG = 1
LIBC = ctypes.CDLL(None)


def die_with_parent() -> None:
    """Has the kernel kill this process when its parent ends."""
    LIBC.prctl(PR_SET_PDEATHSIG, signal.SIGKILL)


class CommandLine:
    """A client, by a process of `krl-client` for its lines."""

    def __init__(self, number: int, servers: str, lock_file: Path) -> None:
        words = ["--server", servers, "--number", str(number), "--lock-file", str(lock_file)]
        if tls := tls_of(number, servers):
            words += ["--tls-authority", str(tls.authority), "--tls-key", str(tls.key)]
            words += ["--tls-certificate", str(tls.certificate)]
        self._command = [os.environ["KRL_CLIENT_PROGRAM"], "--json", *words]
        # A line also joins, and a server that recovers answers late.
        self._command += ["--timeout", f"{2 * TIMEOUT:g}s"]
        self._process = self._start()

    def _start(self) -> subprocess.Popen[str]:
        pipe = subprocess.PIPE
        return subprocess.Popen(
            self._command,
            stdin=pipe,
            stdout=pipe,
            stderr=subprocess.DEVNULL,
            text=True,
            preexec_fn=die_with_parent,
        )

    def _answer(self, line: str) -> Any:
        """What is printed of a line. A process that has ended is left, and another one started."""
        assert self._process.stdin is not None and self._process.stdout is not None
        try:
            self._process.stdin.write(line + "\n")
            self._process.stdin.flush()
            answer = self._process.stdout.readline()
        except BrokenPipeError:
            answer = ""
        if answer:
            result = json.loads(answer)
            if result.get("outcome", "applied") == "applied":
                return result
        status = self._process.wait()
        self._process = self._start()
        if answer:
            return result
        if status in UNANSWERED:
            raise krl.TimedOut("krl-client has no answer")
        raise SystemExit(f"krl-client ended with status {status}: {line}")

    def read(self, start: int, stop: int) -> list[krl.Row]:
        rows = self._answer(f"scan {start} {stop}")["rows"]
        return [krl.Row(row["key"], bytes.fromhex(row["hex"])) for row in rows]

    def cached(self, start: int, stop: int) -> list[krl.Row] | None:
        return None

    def insert(self, key: int, value: bytes) -> krl.Outcome:
        return self._write(f"insert {key} hex:{value.hex()}")

    def put(self, key: int, value: bytes) -> krl.Outcome:
        return self._write(f"put {key} hex:{value.hex()}")

    def delete(self, key: int) -> krl.Outcome:
        return self._write(f"delete {key}")

    def _write(self, line: str) -> krl.Outcome:
        return OUTCOMES[self._answer(line)["outcome"]]

    def leave(self) -> None:
        assert self._process.stdin is not None
        self._process.stdin.close()
        self._process.wait()


if __name__ == "__main__":
    main(CommandLine)
