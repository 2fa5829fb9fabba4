"""A client of krl, which holds keys as a reader does: what a check may stop.

    reader.py SERVERS NUMBER LOCK_FILE [leaves]

Each line of its input is "hold" or "held" with keys. It takes the keys of the former, and prints those that it has.
With "leaves" it gives them back at SIGTERM, as the page of the client for Python describes.
"""
import signal
import sys

from krl import join

servers, number, lock_file, *leaves = sys.argv[1:]
if leaves:
    signal.signal(signal.SIGTERM, lambda *_: sys.exit())
client = join(servers, int(number), lock_file)
for line in sys.stdin:
    word, *keys = line.split()
    if word == "hold":
        for key in map(int, keys):
            client.read(key, key + 1)
    print(*(key for key in keys if client.cached(int(key), int(key) + 1) is not None), flush=True)
