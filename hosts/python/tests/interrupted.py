"""Waits for a range that another client keeps, until it interrupts itself as Ctrl-C does.

    interrupted.py SERVERS LOCK_FILE
"""

import signal
import sys
import threading
from pathlib import Path

sys.path.insert(0, str(Path(__file__).resolve().parent.parent))

import krl  # noqa: E402


def place() -> tuple[int, int]:
    """Where the main thread is."""
    frame = sys._current_frames()[threading.main_thread().ident or 0]
    return id(frame), frame.f_lasti


def interrupt() -> None:
    """Interrupts the main thread as soon as it sleeps, which is while it waits. A signal that comes
    just before the wait may be handled only after it, so it is sent until one is handled."""
    before = None
    while not is_heard.is_set():
        if (now := place()) == before:
            signal.pthread_kill(threading.main_thread().ident or 0, signal.SIGINT)
        before = now
        is_heard.wait(0.3)


is_heard = threading.Event()
# A process of a job in the background begins with this signal ignored.
signal.signal(signal.SIGINT, signal.default_int_handler)
with krl.join(sys.argv[1], 1, sys.argv[2], 3600) as client:
    try:
        threading.Thread(target=interrupt, daemon=True).start()
        client.read(0, 20)
    except KeyboardInterrupt:
        is_heard.set()
        print("interrupted", flush=True)
    client.timeout = 1
