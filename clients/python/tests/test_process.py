"""The program beneath a document: its file, its end, and threads."""
from __future__ import annotations

import os
import signal
import threading
import time
import unittest
from typing import Any

from jdoc import Died, Document, Lost, Status, Unsaved
from support import Case


def pid(document: Document) -> int:
    return document._child._process.pid


class Files(Case):
    def test_a_document_goes_on_from_its_file(self) -> None:
        path = self.folder / "a document"
        with Document.open(path) as document:
            number = document.number
            item = document.append("l", "kept")
        with Document.open(path) as document:
            self.assertEqual((document.number, len(document), document.get()), (number, 1, {"l": ["kept"]}))
            document.set(("l", item), "changed")
            self.assertEqual(document.status(), (number, 2, 2))
        with Document.open(str(path), number=number) as document:
            self.assertEqual(document.get(), {"l": ["changed"]})
        with self.assertRaises(Died):
            Document.open(path, number=number % 4294967295 + 1)

    def test_a_file_that_only_received_draws_a_number(self) -> None:
        path = self.folder / "received"
        other = self.open(number=5)
        other.set("k", 1)
        for _ in range(2):
            with Document.open(path) as document:
                document.sync(other)
                self.assertNotEqual(document.number, 5)
                self.assertEqual(document.get(), {"k": 1})

    def test_a_file_is_open_once(self) -> None:
        path = self.folder / "one"
        document = self.open(path)
        document.set("k", 1)
        with self.assertRaisesRegex(Died, "jdoc: "):
            Document.open(path)
        document.set("k", 2)
        document.close()
        self.assertEqual(self.open(path).get(), {"k": 2})

    def test_a_file_that_is_none_of_ours_is_left_alone(self) -> None:
        path = self.folder / "letter"
        path.write_text("Dear Sir,\n")
        with self.assertRaisesRegex(Died, "jdoc: "):
            Document.open(path)
        self.assertEqual(path.read_text(), "Dear Sir,\n")

    def test_what_is_no_file_is_not_opened(self) -> None:
        for path in (self.folder, self.folder / "nowhere" / "file"):
            with self.assertRaises(Died):
                Document.open(path)

    def test_a_path_may_look_like_a_word(self) -> None:
        before = os.getcwd()
        self.addCleanup(os.chdir, before)
        os.chdir(self.folder)
        with Document.open("--number") as document:
            document.set("k", 1)
        self.assertTrue((self.folder / "--number").exists())


class Ends(Case):
    def test_what_cannot_be_started_says_so(self) -> None:
        for program, why in (
            (str(self.folder / "nowhere"), "can't start"),
            (["false"], "status 1"),
            ("true", "status 0"),
            (["sh", "-c", "echo what is wrong >&2; exit 3"], "status 3: what is wrong"),
            (["sh", "-c", "kill -9 $$"], "signal 9"),
            (["sh", "-c", "echo hello; sleep 100"], "hello"),
            (["sh", "-c", "echo '['; echo ']'; sleep 100"], "more than a line|was due"),
        ):
            with self.assertRaisesRegex(Died, why):
                Document.open(program=program)
        for number in (0, -1, 4294967296):
            with self.assertRaisesRegex(ValueError, "from 1 to 4294967295"):
                Document.open(number=number)

    def test_a_killed_program_is_an_exception_ever_after(self) -> None:
        path = self.folder / "killed"
        document = self.open(path)
        document.set("k", "saved")
        os.kill(pid(document), signal.SIGKILL)
        # Once it is gone, writing to it fails; before that, reading does.
        document._child._process.wait()
        calls: list[Any] = [document.get, document.hello, document.save, lambda: document.set("k", 1)]
        for call in calls:
            with self.assertRaisesRegex(Died, "signal 9"):
                call()
        document.close()
        self.assertEqual(self.open(path).get(), {"k": "saved"})

    def test_threads_that_wait_for_a_killed_program_are_told(self) -> None:
        document = self.open(number=1)
        os.kill(pid(document), signal.SIGSTOP)
        told: list[str] = []

        def ask() -> None:
            try:
                document.get()
            except Died as it:
                told.append(str(it))

        threads = self.apart(*[ask] * 5)
        time.sleep(0.1)
        self.assertEqual(told, [])
        os.kill(pid(document), signal.SIGKILL)
        self.join(threads)
        self.assertEqual(len(told), 5)

    def test_a_closed_document_is_closed(self) -> None:
        document = self.open(number=1)
        process = document._child._process
        with document:
            document.set("k", 1)
        document.close()
        self.assertEqual(process.returncode, 0)
        with self.assertRaisesRegex(ValueError, "closed"):
            document.get()

    def test_what_finds_no_room_in_the_file_is_not_saved(self) -> None:
        path = self.folder / "full"
        # The file may have at most 2048 bytes or 2048 kilobytes, depending on the shell.
        limited = ["sh", "-c", 'trap "" XFSZ; ulimit -f 4; exec "$0" "$@"', os.environ["JDOC"]]
        document, other, saved = self.open(path, number=1, program=limited), self.open(number=2), 0
        with self.assertRaises(Unsaved) as unsaved:
            while saved < 1000:
                document.set("n", saved + 1)
                saved += 1
        self.assertEqual((unsaved.exception.length, unsaved.exception.saved), (saved + 1, saved))
        with self.assertRaises(Unsaved):
            document.save()
        self.assertEqual((document.status(), document.get("n")), (Status(1, saved + 1, saved), saved + 1))
        # What isn't saved isn't sent.
        other.receive(document.answer(other.hello()).lines)
        self.assertEqual(other.get("n"), saved)
        document.close()
        self.assertEqual(self.open(path).get("n"), saved)

    def test_what_is_not_saved_is_told(self) -> None:
        replies = ['["ready",1,0]', '["unsaved",1,0]', '["unsaved",1,0]', '["saved",1]', '["lost"]']
        said = "; read -r line; ".join(f"echo '{it}'" for it in replies)
        document = self.open(program=["sh", "-c", f"{said}; exit 5"])
        for call in (lambda: document.set("k", 1), document.save):
            with self.assertRaises(Unsaved) as unsaved:
                call()
            self.assertEqual((unsaved.exception.length, unsaved.exception.saved), (1, 0))
        document.save()
        with self.assertRaises(Lost):
            document.set("k", 2)
        with self.assertRaisesRegex(Died, "status 5"):
            document.get()


class Threads(Case):
    def test_ten_read_beside_one_that_writes(self) -> None:
        document = self.open(number=1)
        document.set("n", 0)
        last, faults = 40, []

        def write() -> None:
            for it in range(1, last + 1):
                document.set("n", it)

        def read() -> None:
            seen, now = 0, 0
            while now < last:
                now = document.get("n")
                if not isinstance(now, int) or now < seen:
                    faults.append((seen, now))
                    return
                seen = now

        self.join(self.apart(write, *[read] * 10))
        self.assertEqual((faults, len(document)), ([], last + 1))

    def test_values_of_several_commands_do_not_mix(self) -> None:
        document = self.open(number=1)

        def append(name: str) -> Any:
            return lambda: [document.append("l", [name, [name]]) for _ in range(5)]

        self.join(self.apart(*map(append, "abc")))
        self.assertEqual(sorted(map(str, document.get("l"))), [str([it, [it]]) for it in "abc" for _ in range(5)])


if __name__ == "__main__":
    unittest.main()
