"""What the gate keeps on this machine, so that a later run takes it over: the names of a crate's functions, which
`rt ci` prints only if it proves the crate, that all wrong bodies of a crate were refused, and that a committed library
is the one that was built.

Each file is named by the checksum of all that it was made from: the kit, the crate's sources and those below it, for
wrong bodies also the edits and the scripts that try them, and for a library also what is committed and the scripts that
build it. So it never goes stale. They are in
$XDG_CACHE_HOME/krl or ~/.cache/krl; if that cannot be written, nothing is kept."""
import contextlib
import hashlib
import os
import pathlib
import time

from crates import TOP

PARTS = ("src", "specs", "proofs")
# The scripts by which a wrong body is judged.
SCRIPTS = ("copies.py", "crates.py", "definitions.py", "edits.py", "prover.py", "wrong_bodies")
# What nothing has used for so many seconds is removed.
LONGEST = 90 * 24 * 3600


def files_below(folder):
    return sorted(it for it in folder.rglob("*") if it.is_file())


def add(total, files):
    """Adds the names and contents of files of the repository to a checksum."""
    for file in files:
        content = hashlib.sha256(file.read_bytes()).hexdigest()
        total.update(f"{file.relative_to(TOP)} {content}\n".encode())


class Kept:
    """The folder of what is kept."""

    def __init__(self, uses, kit):
        prover = (kit / "bin/rattle").stat()
        self.uses, self.kit = uses, f"{(kit / 'KIT-ID').read_text()} {prover.st_size} {prover.st_mtime_ns}"
        self.folder = pathlib.Path(os.environ.get("XDG_CACHE_HOME") or pathlib.Path.home() / ".cache") / "krl"
        # Taken at once: what is edited while the gate runs counts for nothing.
        self.sums = self.sums_now()

    def sums_now(self):
        """By a crate's name, the checksum of the kit and of its sources and those below it, and the same with its wrong
        bodies and the scripts that try them."""
        sums = {}

        def take(name):
            if name not in sums:
                below = [take(it)[0] for it in self.uses[name] if it in self.uses]
                total = hashlib.sha256(f"{self.kit} {name} {self.uses[name]} {below}\n".encode())
                for part in PARTS:
                    add(total, files_below(TOP / "crates" / name / part))
                own = total.hexdigest()
                add(total, files_below(TOP / "crates" / name / "wrong"))
                add(total, [TOP / "tests" / it for it in SCRIPTS])
                sums[name] = own, total.hexdigest()
            return sums[name]

        for name in self.uses:
            take(name)
        return sums

    def read(self, kind, total):
        """What is kept so, if something is."""
        file = self.folder / f"{kind}-{total}"
        with contextlib.suppress(OSError):
            os.utime(file)
            return file.read_text(encoding="utf-8")
        return None

    def write(self, kind, total, text):
        """Keeps a text, written next to its place and renamed: no other run reads half of it."""
        with contextlib.suppress(OSError):
            self.folder.mkdir(parents=True, exist_ok=True)
            half = self.folder / f"half-{os.getpid()}"
            half.write_text(text, encoding="utf-8")
            half.rename(self.folder / f"{kind}-{total}")
            self.remove_old()

    def remove_old(self):
        for file in self.folder.iterdir():
            with contextlib.suppress(OSError):
                if file.stat().st_mtime < time.time() - LONGEST:
                    file.unlink()

    def functions(self, name):
        """The functions of a crate that was proved as it stands; none if nothing is kept of it."""
        return (self.read("functions", self.sums[name][0]) or "").split()

    def keep_functions(self, name, functions):
        self.write("functions", self.sums[name][0], "\n".join(functions))

    def total_with(self, name, files):
        """The checksum of the kit, of a crate, those below it, and these files."""
        total = hashlib.sha256(f"{self.sums[name][0]}\n".encode())
        add(total, files)
        return total.hexdigest()

    def were_refused(self, name):
        """Whether all wrong bodies of a crate were refused, as they and the crate stand."""
        return self.read("refused", self.sums[name][1]) is not None

    def keep_refused(self, name):
        """Keeps that they were refused, unless a file has changed since the run began."""
        if self.sums_now()[name] == self.sums[name]:
            self.write("refused", self.sums[name][1], "")
