"""Tests of reads that are not kept, with a real server."""

from __future__ import annotations

import krl
from krl import END, Outcome, Row

from .serving import PATIENCE, Served


class ReaderTest(Served):
    def test_what_is_read_once_is_not_kept(self) -> None:
        client, reader = self.join(0), krl.Reader(self.address, PATIENCE)
        rows = [Row(key, key.to_bytes(2, "big")) for key in range(300)]
        for row in rows:
            self.assertEqual(client.insert(row.key, row.value), Outcome.APPLIED)
        client.forget()
        self.assertEqual(client.read_once(), rows)
        self.assertEqual(client.read_once(10, 20), rows[10:20])
        self.assertIsNone(client.cached(10, 20))
        self.assertEqual(reader.read(), rows)
        self.assertEqual((reader.get(7), reader.get(300)), (rows[7].value, None))
        with self.assertRaises(krl.BadRange):
            reader.read(20, 10)
        with self.assertRaises(krl.BadKey):
            reader.get(END)

    def test_a_reader_that_is_not_connected_hears_why(self) -> None:
        for words in ({"servers": "nowhere"}, {"map": "missing.toml"}, {}):
            with self.assertRaises(krl.BadOption):
                krl.Reader(**words)
        with self.assertRaisesRegex(krl.JoinError, "nothing listens"):
            krl.Reader("127.0.0.1:1", PATIENCE)
