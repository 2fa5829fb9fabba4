"""A client in Python: client.py 127.0.0.1:7400."""
import sys

import krl


def show(what, rows):
    print("\n".join(f"{what}: {key}={value.decode()}" for key, value in rows) or f"{what}: no row")


with krl.connect(sys.argv[1]) as client:                # takes the first free number
    print("client", client.number)

    value = client.get(15)                              # None if there is no row
    print("get:", "no row" if value is None else value.decode())
    show("read", client.read(10, 20))                   # asks the server, and keeps the range
    rows = client.cached(10, 20)                        # no message; None if the cache lacks a part
    if rows is not None:
        show("cached", rows)

    if client.put(15, b"hello") is krl.Outcome.ABSENT:
        print("put: there is no row")                   # `set` inserts it, or replaces its value
    client.set(15, b"hello")

    with client.pin_for_update(10, 20) as pin:          # nobody else pins it for an update
        show("pinned", pin.rows)
        pin.put(15, b"world")                           # made while the pin holds, or never

    changes = client.changes(10, 20)                    # the rows now, and again after each change
    show("now", next(changes))
    client.delete(15)
    show("changed", next(changes))

    try:
        krl.connect("127.0.0.1:1")
    except krl.JoinError as error:
        print("error:", error)
