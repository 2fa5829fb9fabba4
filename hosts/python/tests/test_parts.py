"""Tests that need no server: what is declared here is what the header of the library declares."""

from __future__ import annotations

import ctypes
import os
import re
import subprocess
import unittest
from concurrent.futures import Future
from pathlib import Path
from threading import Event, enumerate as threads

import krl
from krl import Outcome
from krl import _library as lib
from krl._library import MOST, Workers

from .serving import PATIENCE, lines_of

HEADER = Path(__file__).resolve().parents[2] / "capi" / "include" / "krl_client.h"

LETTERS = {"void": "-", "bool": "?", "uint32_t": "i", "size_t": "n", "uint64_t": "q"}


def letter_of(parameter: str) -> str:
    """The letter of a result or a parameter in C. Bytes that are only read come as such."""
    if "*" in parameter:
        return "s" if re.search(r"const (void|krlc_row) \*\w", parameter) else "p"
    return LETTERS[parameter.split()[0]]


class HeaderTest(unittest.TestCase):
    def setUp(self) -> None:
        self.code = re.sub(r"/\*.*?\*/", "", HEADER.read_text(), flags=re.DOTALL)

    def members(self, name: str) -> list[tuple[str, str, str]]:
        """The members of a struct: the type, the star of a pointer, and the name."""
        body = re.search(rf"typedef struct krlc_{name} {{(.*?)}}", self.code, re.DOTALL)
        assert body is not None, name
        return re.findall(r"(?:const )?(\w+) (\*?)(\w+)(?:\[\w+\])?;", body[1])

    def number(self, name: str) -> int:
        """The number of a constant."""
        found = re.search(rf"\b{name}(?: = |\s+)(?:UINT64_C\()?(-?\d+)", self.code)
        assert found is not None, name
        return int(found[1])

    def test_calls_are_declared_as_in_the_header(self) -> None:
        declared = {}
        for result, name, words in re.findall(r"([\w *]+?)krlc_(\w+)\(([^)]*)\);", self.code):
            result = result.replace("KRLC_NODISCARD", "").strip()
            parameters = [] if words == "void" else words.split(",")
            letters = [letter_of(" ".join(word.split())) for word in parameters]
            declared[name] = ("p" if "*" in result else LETTERS[result]) + "".join(letters)
        named = dict(call.split(":") for call in (lib._AT_ONCE + " " + lib._WAITING).split())
        self.assertGreater(len(named), 25)
        for name, types in named.items():
            self.assertEqual(types, declared[name], name)
        # What Python has no call for: it has names, rooms and timeouts of its own, makes each write
        # as one of several, reads one row as a range, and has no tenures.
        writes = {"insert", "put", "set", "delete"}
        without = {"cached_into", "code_name", "get", "set_timeout", "tenure", *writes}
        without |= {"reader_get", *(f"pin_{write}" for write in writes)}
        self.assertEqual(declared.keys() - named, without)

    def test_structs_are_those_of_the_header(self) -> None:
        types = {"uint32_t": 4, "int32_t": 4, "uint64_t": 8, "size_t": 8, "char": 500}
        for name, kind in {"error": lib.Failure, "options": lib.Options}.items():
            there = self.members(name)
            sizes = [8 if star else types[word] for word, star, _ in there]
            fields = kind._fields_
            self.assertEqual(sizes, [ctypes.sizeof(field[1]) for field in fields], name)
            names = [field[0] for field in fields]
            self.assertEqual([text.replace("sentence", "text") for _, _, text in there], names)
        letters = {"uint64_t": "Q", "uint32_t": "I", "bool": "?", "uint8_t": "32s"}
        for name, packed in {"row": lib.ROW, "status": lib.STATUS, "write": lib.WRITE}.items():
            row = "QQ32s" if name == "write" else ""
            form = "".join(letters[word] for word, _, _ in self.members(name) if word in letters)
            self.assertEqual(packed.format.replace("7x", ""), f"={form}{row}", name)
        members = [text for _, _, text in self.members("status")]
        self.assertEqual([text.replace("_ms", "") for text in members], list(krl.Status._fields))
        # C fills up to whole words.
        self.assertEqual(lib.STATUS.size % 8, 0)
        self.assertEqual(lib.ROW.size, 16 + self.number("KRLC_MAX_VALUE_BYTES"))
        self.assertEqual(ctypes.sizeof(lib.RowRoom), lib.ROW.size)
        self.assertEqual(lib.WRITE.size, 8 + lib.ROW.size)
        self.assertEqual(ctypes.sizeof(lib.Failure), 12 + self.number("KRLC_MAX_SENTENCE_BYTES"))

    def test_codes_and_reasons_are_those_of_the_header(self) -> None:
        for name in ("OK", "MISS", "ANSWERS", "MISUSE", "BAD_TLS", "NUMBERS", "END", "TOP"):
            self.assertEqual(getattr(lib, name), self.number(f"KRLC_{name}"))
        options = ("MISUSE", "BAD_RANGE", "BAD_NUMBER", "BAD_ADDRESS", "BAD_MAP", "BAD_TLS")
        of_join: dict[int, type[krl.JoinError]] = {
            self.number("KRLC_LOCK_FILE"): krl.LockFileError,
            self.number("KRLC_LOCK_FILE_TAKEN"): krl.LockFileTaken,
        }
        of_join |= {self.number(f"KRLC_{name}"): krl.BadOption for name in options}
        self.assertEqual(lib.JOIN_ERRORS, of_join)
        outcomes = ("OK", "EXISTS", "ABSENT", "FULL", "NOT_HELD", "UNKNOWN", "NOT_MADE")
        self.assertEqual(list(Outcome), [self.number(f"KRLC_{name}") for name in outcomes])
        for reason in krl.Reason:
            self.assertEqual(reason, self.number(f"KRLC_REASON_{reason.name}"))
        self.assertEqual(len(krl.Reason), self.code.count("KRLC_REASON_"))

    def test_each_error_has_the_code_of_its_name(self) -> None:
        names = {"BadValue": "TOO_LONG", "Closed": "LEFT", "NotSent": "NOT_MADE"}
        kinds = [kind for kind in vars(krl).values() if isinstance(kind, type)]
        refused = [it for it in kinds if issubclass(it, krl.Refused) and it is not krl.Refused]
        for kind in refused:
            spelled = re.sub(r"(?<!^)([A-Z])", r"_\1", kind.__name__).upper()
            name = names.get(kind.__name__, spelled)
            self.assertEqual(kind.code, self.number(f"KRLC_{name}"), kind)
        self.assertEqual(len({kind.code for kind in refused}), 18)

    def test_the_library_the_package_and_the_header_have_one_version(self) -> None:
        parts = [str(self.number(f"KRLC_VERSION_{part}")) for part in ("MAJOR", "MINOR", "PATCH")]
        self.assertEqual(".".join(parts), krl.__version__)
        self.assertEqual(".".join(parts[:2]), lib.VERSION)

    def test_another_patch_fits_and_another_minor_or_major_version_does_not(self) -> None:
        major, minor = map(int, lib.VERSION.split("."))
        version = major * 1_000_000 + minor * 1_000
        for fits in (version, version + 1, version + 999):
            lib.check_version(fits)
        for other in (version - 1, version + 1_000, version + 1_000_000):
            with self.assertRaisesRegex(OSError, f"needs {lib.VERSION}"):
                lib.check_version(other)
        with self.assertRaisesRegex(OSError, "has version 12.34, "):
            lib.check_version(12_034_005)


class LoadingTest(unittest.TestCase):
    def test_without_the_library_a_client_learns_where_it_was_looked_for(self) -> None:
        variables = os.environ | {lib.NAMED_BY: "/nowhere/libkrl_client.so"}
        lines = ("try: krl.join('unix:none', 0, 'none.lock')", "except krl.LibraryError as error:")
        command = lines_of(*lines, "    print(error)")
        ended = subprocess.run(command, capture_output=True, text=True, env=variables)
        message = f"cannot be loaded: .* {lib.NAMED_BY}.* /nowhere/libkrl_client.so"
        self.assertRegex(ended.stdout, message)
        # Nothing is freed that was not made.
        self.assertEqual(ended.stderr, "")


class RowsTest(unittest.TestCase):
    def test_rows_are_packed_as_c_has_them(self) -> None:
        rows = [krl.Row(0, b""), krl.Row(krl.END - 1, b"a\0b"), krl.Row(7, bytes(range(32)))]
        packed = b"".join(lib.ROW.pack(row.key, len(row.value), row.value) for row in rows)
        self.assertEqual(len(packed), 3 * 48)
        self.assertEqual(lib.rows_in(packed), rows)
        # The bytes past a value's length have no meaning.
        self.assertEqual(lib.rows_in(packed[:16] + b"x" * 32), [krl.Row(0, b"")])


class WorkersTest(unittest.TestCase):
    def test_calls_that_wait_do_so_at_once_and_threads_are_used_again(self) -> None:
        workers, go_on, before = Workers(), Event(), len(threads())
        waiting = [workers.begin(go_on.wait, PATIENCE) for _ in range(4)]
        self.assertEqual(workers.begin(sum, (1, 2)).result(PATIENCE), 3)
        go_on.set()
        self.assertEqual([future.result(PATIENCE) for future in waiting], 4 * [True])
        for number in range(100):
            self.assertEqual(workers.begin(abs, -number).result(PATIENCE), number)
        self.assertLessEqual(len(threads()) - before, 6)

    def test_there_are_not_more_threads_than_that(self) -> None:
        workers, go_on, before = Workers(), Event(), len(threads())
        waiting = [workers.begin(go_on.wait, PATIENCE) for _ in range(2 * MOST)]
        self.assertEqual(len(threads()) - before, MOST)
        go_on.set()
        self.assertTrue(all(future.result(PATIENCE) for future in waiting))

    def test_an_error_of_a_call_is_that_of_who_waits(self) -> None:
        future: Future[float] = Workers().begin(lambda: 1 / 0)
        with self.assertRaises(ZeroDivisionError):
            future.result(PATIENCE)

    def test_a_call_that_is_cancelled_before_it_begins_is_not_made(self) -> None:
        workers, go_on = Workers(), Event()
        made: list[int] = []
        waiting = [workers.begin(go_on.wait, PATIENCE) for _ in range(MOST)]
        later = workers.begin(made.append, 1)
        self.assertTrue(later.cancel())
        go_on.set()
        self.assertTrue(all(future.result(PATIENCE) for future in waiting))
        workers.begin(made.append, 2).result(PATIENCE)
        self.assertEqual(made, [2])


if __name__ == "__main__":
    unittest.main()
