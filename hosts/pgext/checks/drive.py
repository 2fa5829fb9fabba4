"""Readers in Rust, C and Python that keep rows in memory next to writers of SQL, while they, sessions, workers of the
extension, krl's server and PostgreSQL are killed and stopped: krl_drive."""
import os
import subprocess

from checks.processes import Failed

# How long the drive drives, and how long it may take, in seconds.
SECONDS, LONGEST = 20, 600
# Its status if a read was wrong.
WRONG = 3


def check(installation):
    """Runs the drive."""
    folder = installation.folder / "drive"
    words = [installation.top / "bin/krl_drive", "cache", folder, SECONDS]
    how = {"stdin": subprocess.DEVNULL, "stdout": subprocess.PIPE, "stderr": subprocess.STDOUT, "text": True}
    # The user of PostgreSQL may not read the tree: the reader in Python takes the copy of the package.
    environment = {**os.environ, "KRL_POSTGRESQL": str(installation.inside("bindir"))}
    environment["PYTHONPATH"] = str(installation.top / "hosts/python")
    ran = subprocess.run([str(word) for word in words], errors="replace", env=environment, timeout=LONGEST, **how)
    last = ran.stdout.strip().rpartition("\n")[2]
    if ran.returncode == WRONG:
        raise Failed(last)
    if ran.returncode != 0:
        raise RuntimeError(f"the drive has failed: {ran.stdout}")
    print(f"check: {last}", flush=True)
