"""Programs that a check talks with: sessions of psql, and clients of krl."""
import os
import queue
import shutil
import signal
import subprocess
import sys
import threading
import time
from pathlib import Path

# How long anything may take before a check fails, in seconds.
DEADLINE = 120
CLUSTER_MARK = 1 << 40
# The user postgres may not be able to run what runs this.
PYTHON = shutil.which("python3", path=os.defpath) or sys.executable


class Failed(Exception):
    """What was expected did not come about."""


def expect(what, found, expected):
    """Fails unless what was found is what is expected."""
    if found != expected:
        raise Failed(f"{what}: expected {expected!r}, and found {found!r}")


def wait_until(what, is_so, seconds=DEADLINE):
    """Waits until this is so, and returns it."""
    end = time.monotonic() + seconds
    while not (found := is_so()):
        if time.monotonic() > end:
            raise Failed(f"{what}: it did not come about within {seconds} seconds")
        time.sleep(0.02)
    return found


def stop_process(pid):
    """Stops a process, and waits until each of its threads has stopped."""
    os.kill(pid, signal.SIGSTOP)
    threads = Path(f"/proc/{pid}/task")
    wait_until("a process stops", lambda: all(state_of(f"{pid}/task/{it.name}")[0] == "T" for it in threads.iterdir()))


def state_of(pid):
    """The state of a process, by its letter, and its parent; or None if there is no such process."""
    try:
        words = Path(f"/proc/{pid}/stat").read_text(encoding="utf-8", errors="replace").rpartition(")")[2].split()
    except OSError:
        return None, None
    return words[0], int(words[1])


def is_running(pid):
    """Whether there is such a process, and it has not ended."""
    return state_of(pid)[0] not in ("Z", None)


def running():
    """All processes."""
    return [int(path.name) for path in Path("/proc").iterdir() if path.name.isdigit() and is_running(path.name)]


def children_of(pid):
    """The processes that a process has started."""
    return [child for child in running() if state_of(child)[1] == pid]


class Lines:
    """A program that is sent lines, and whose lines are read with a deadline."""

    def __init__(self, words, **how):
        pipes = {"stdin": subprocess.PIPE, "stdout": subprocess.PIPE, "text": True, "errors": "replace"}
        self.process = subprocess.Popen([str(word) for word in words], **pipes, **how)
        self.lines = queue.Queue()
        threading.Thread(target=self._read, daemon=True).start()

    def _read(self):
        for line in self.process.stdout:
            self.lines.put(line.rstrip("\n"))
        self.lines.put(None)

    def write(self, text):
        """Sends a line, if the program still reads."""
        try:
            self.process.stdin.write(text + "\n")
            self.process.stdin.flush()
        except BrokenPipeError:
            pass

    def read(self):
        """The next line, or None if the program has ended."""
        try:
            return self.lines.get(timeout=DEADLINE)
        except queue.Empty:
            raise Failed(f"no line came from {self.process.args[0]}") from None

    def end(self):
        """Ends the program."""
        self.process.kill()
        self.process.wait()


class Session(Lines):
    """A session of psql. What is sent may wait, and its result is read later."""
    END = "-- the end of the result --"

    def __init__(self, words):
        super().__init__(words, stderr=subprocess.STDOUT)
        self.pid = int(self.run("SELECT pg_backend_pid()"))

    def send(self, *statements):
        """Sends statements, without waiting for what they do."""
        for statement in statements:
            self.write(statement + ";")
        self.write(f"\\echo {self.END}")

    def result(self):
        """What the statements that were sent print, with errors."""
        found = []
        while (line := self.read()) not in (self.END, None):
            found.append(line)
        return "\n".join(found)

    def run(self, *statements):
        """Runs statements, and returns what they print."""
        self.send(*statements)
        return self.result()


class Reader(Lines):
    """A client of krl in a process of its own."""

    def __init__(self, top, servers, number, lock_file, *words):
        library = {"KRL_CLIENT_LIBRARY": str(top / "bin/libkrl_client.so"), "PYTHONPATH": str(top / "hosts/python")}
        words = [PYTHON, Path(__file__).with_name("reader.py"), servers, number, lock_file, *words]
        super().__init__(words, env={**os.environ, **library})

    def _ask(self, word, keys):
        self.write(" ".join(map(str, [word, *keys])))
        line = self.read()
        if line is None:
            raise Failed("the reader has ended")
        return [int(key) for key in line.split()]

    def hold(self, keys):
        """Takes these keys. Returns those of them that it has then."""
        return self._ask("hold", keys)

    def held(self, keys):
        """Which of these keys it has."""
        return self._ask("held", keys)

    def stop(self):
        """Stops the process: it gives nothing back."""
        stop_process(self.process.pid)

    def end_by(self, number):
        """Ends the process by a signal."""
        self.process.send_signal(number)
        self.process.wait()

    def resume(self):
        """Lets the process continue."""
        self.process.send_signal(signal.SIGCONT)
