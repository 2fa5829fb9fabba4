"""A client in Python, for asyncio: async_client.py 127.0.0.1:7400."""
import asyncio
import sys

import krl
import krl.aio


def show(what, rows):
    print("\n".join(f"{what}: {key}={value.decode()}" for key, value in rows) or f"{what}: no row")


async def main():
    async with await krl.aio.connect(sys.argv[1]) as client:
        print("client", client.number)

        value = await client.get(15)
        print("get:", "no row" if value is None else value.decode())
        show("read", await client.read(10, 20))
        rows = client.cached(10, 20)                    # no message, and nothing to await
        if rows is not None:
            show("cached", rows)

        if await client.put(15, b"hello") is krl.Outcome.ABSENT:
            print("put: there is no row")
        await client.set(15, b"hello")

        async with await client.pin_for_update(10, 20) as pin:
            show("pinned", pin.rows)
            await pin.put(15, b"world")

        changes = client.changes(10, 20)
        show("now", await anext(changes))
        await client.delete(15)
        show("changed", await anext(changes))

        try:
            await krl.aio.connect("127.0.0.1:1")
        except krl.JoinError as error:
            print("error:", error)


asyncio.run(main())
