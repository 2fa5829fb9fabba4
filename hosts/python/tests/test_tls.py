"""Tests of a client over TLS with a real server."""

from __future__ import annotations

import os
import subprocess
import unittest

import krl
from krl import Outcome

from .serving import PATIENCE, Served, free_port


class TlsTest(Served):
    def setUp(self) -> None:
        super().setUp()
        script = os.path.join(os.path.dirname(__file__), "..", "..", "packaging", "certificates")
        self.pki = self.folder / "pki"
        command = [script, str(self.pki), "server", "client-0", "client-1"]
        subprocess.run(command, check=True, capture_output=True)
        self.stop()
        self.address = f"tls:127.0.0.1:{free_port()}"
        files = (f"{self.pki}/{name}" for name in ("authority.crt", "server.crt", "server.key"))
        words = zip(("--tls-authority", "--tls-certificate", "--tls-key"), files)
        self.server = self.start(*(word for pair in words for word in pair))

    def tls(self, number: int) -> krl.Tls:
        own = self.pki / f"client-{number}"
        return krl.Tls(self.pki / "authority.crt", f"{own}.crt", f"{own}.key")

    def test_a_client_shows_its_certificate(self) -> None:
        words = (self.address, 0, self.lock_file(0), PATIENCE)
        with krl.join(*words, tls=self.tls(0)) as client:
            self.assertEqual(client.insert(10, b"1"), Outcome.APPLIED)
            client.reload_tls()
            (self.pki / "client-0.key").write_text("none")
            with self.assertRaisesRegex(krl.BadOption, "client-0.key"):
                client.reload_tls()
            self.assertEqual(client.put(10, b"2"), Outcome.APPLIED)

    def test_a_certificate_of_another_number_is_turned_away(self) -> None:
        with self.assertRaises(krl.JoinError) as raised:
            krl.join(self.address, 0, self.lock_file(0), PATIENCE, tls=self.tls(1))
        self.assertIsInstance(raised.exception.__cause__, krl.TurnedAway)
        with self.assertRaisesRegex(krl.BadOption, "nowhere"):
            nowhere = krl.Tls("/nowhere/a", "/nowhere/b", "/nowhere/c")
            krl.join(self.address, 0, self.lock_file(0), tls=nowhere)


if __name__ == "__main__":
    unittest.main()
