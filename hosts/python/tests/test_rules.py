"""The client passes scripts of the conformance kit: what the library receives comes as it should.

`tests/hosts` plays all of them to the client in Rust, which is the same.
"""

from __future__ import annotations

import subprocess
import sys
import unittest
from pathlib import Path

HOSTS = Path(__file__).resolve().parents[2]
KIT = HOSTS / "conformance"
CLIENT = HOSTS / "python" / "tests" / "conformance_client.py"


SCRIPTS = ("join", "read", "absent", "pinned", "went_back", "leave", "leases/ended")


class RulesTest(unittest.TestCase):
    def test_scripts_are_passed(self) -> None:
        scripts = [str(KIT / "scripts" / f"{name}.jsonl") for name in SCRIPTS]
        command = [sys.executable, str(KIT / "play.py"), sys.executable, str(CLIENT), "--"]
        played = subprocess.run([*command, *scripts], capture_output=True, text=True)
        self.assertEqual(played.returncode, 0, played.stderr)


if __name__ == "__main__":
    unittest.main()
