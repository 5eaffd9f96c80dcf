"""Why a document isn't opened, as exceptions that an application can tell apart."""
from __future__ import annotations

import os
import pickle
import shlex
import subprocess
import sys
import unittest
from pathlib import Path
from typing import Any

from jdoc import Damaged, Died, Document, Locked, NoProgram, NotFound, WrongNumber
from support import TOP, Case

# Whether the system says which process has locked a file.
HAS_LOCKS = Path("/proc/locks").exists()


class Openings(Case):
    def written(self, name: str = "file") -> Path:
        """A file of number 5 with three lines."""
        path = self.folder / name
        with Document.open(path, number=5) as document:
            document.set("l", [1, 2])
        return path

    def saying(self, said: str, status: int) -> list[str]:
        """A program that says this on standard error, and ends with this status."""
        return ["sh", "-c", f"echo {shlex.quote(said)} >&2; exit {status}"]

    def fault(self, kind: type[Died], *words: Any, **options: Any) -> Any:
        """The exception of exactly this class with which an opening ends."""
        with self.assertRaises(Died) as raised:
            Document.open(*words, **options)
        self.assertIs(type(raised.exception), kind, raised.exception)
        again = pickle.loads(pickle.dumps(raised.exception))
        self.assertEqual((type(again), str(again)), (kind, str(raised.exception)))
        return raised.exception

    def test_a_file_of_another_number(self) -> None:
        for name in ("file", "a name: line 3 of it doesn't fit", "jdoc: cannot open\nthis"):
            fault = self.fault(WrongNumber, self.written(name), number=6)
            self.assertEqual(fault.number, 5)
            self.assertIn("number 5 has", str(fault))

    def test_a_damaged_file(self) -> None:
        path = self.written()
        lines = path.read_bytes().splitlines(keepends=True)
        for bad, line in ((lines[1] + lines[0], 1), (lines[0] + b"[]\n" + lines[2], 2), (lines[0] + lines[2], 2), (b"Dear Sir,\n", 1)):
            path.write_bytes(bad)
            fault = self.fault(Damaged, path)
            self.assertEqual(fault.line, line)
            self.assertIn("doesn't fit", str(fault))
            self.assertEqual(path.read_bytes(), bad)

    def test_the_reason_of_a_damage_is_told(self) -> None:
        rows = [
            ("", None, "doesn't fit"), (": other", "other", "fit: other"),
            (": E7", "E7", "E7 (TextTooLong: a text of more than 4,096 bytes)"),
        ]
        for reason_said, reason, words in rows:
            # Lines of the launcher come first.
            said = f"./jdoc: this run is compiled\njdoc: line 12 of /a b doesn't fit{reason_said}"
            fault = self.fault(Damaged, program=self.saying(said, 2))
            self.assertEqual((fault.line, fault.reason), (12, reason))
            self.assertTrue(str(fault).endswith(words), str(fault))

    def test_a_file_in_no_folder(self) -> None:
        self.assertIn("there is no folder", str(self.fault(NotFound, self.folder / "nowhere" / "file")))
        self.assertIn("Is a directory", str(self.fault(Died, self.folder)))

    def test_a_program_that_is_not_there(self) -> None:
        (self.folder / "text").write_text("no program\n")
        for name in ("nowhere", "text"):
            self.assertIn("can't start", str(self.fault(NoProgram, program=self.folder / name)))

    def test_other_ends_are_none_of_these(self) -> None:
        for status, said in ((3, "jdoc: another program has it"), (2, "another program has it"), (2, "jdoc: what"), (4, "jdoc: no memory")):
            self.fault(Died, program=self.saying(said, status))

    def test_a_file_that_this_process_has_open(self) -> None:
        path = self.written()
        document = self.open(path)
        fault = self.fault(Locked, path)
        self.assertIn("another program has", str(fault))
        if HAS_LOCKS:
            self.assertIn("this process has it open", str(fault))
            self.assertEqual(fault.holder, document._child._process.pid)

    @unittest.skipUnless(HAS_LOCKS, "the system has no list of locks")
    def test_a_file_that_another_process_has_open(self) -> None:
        path = self.written()
        code = "import sys, jdoc; it = jdoc.Document.open(sys.argv[1]); print(it._child._process.pid, flush=True); sys.stdin.read()"
        environment = {**os.environ, "PYTHONPATH": str(TOP / "clients/python")}
        with subprocess.Popen(
            [sys.executable, "-c", code, str(path)], env=environment, stdin=subprocess.PIPE, stdout=subprocess.PIPE, text=True
        ) as other:
            assert other.stdout
            holder = int(other.stdout.readline())
            fault = self.fault(Locked, path)
            self.assertEqual(fault.holder, holder)
            self.assertRegex(str(fault), rf"process {holder} \(.*serve .*\), started by process {other.pid} \(.*python")
            other.communicate("")


if __name__ == "__main__":
    unittest.main()
