"""A process that keeps rows of tables in memory.

    table_reader.py DATABASE FOLDER TABLE..

Each line of its input is a table and a key: it reads the row, and prints its column n and how many keys of the table it
has answered from memory by then.
"""
import sys

import krl.cache

database, folder, *names = sys.argv[1:]
with krl.cache.Cache(database, folder) as cache:
    tables = {name: cache.table(name) for name in names}
    print("ready", flush=True)
    for line in sys.stdin:
        name, key = line.split()
        print(tables[name].get(int(key))["n"], tables[name].statistics().hits, flush=True)
