"""The library in place of the program: what it leaves in the file. There is nothing to test if the environment names no library."""
from __future__ import annotations

import os
import resource
import signal
import unittest
from contextlib import suppress
from typing import Any, Callable, Optional

from jdoc import Damaged, Died, Document, Gone, JdocError, Locked, NoProgram, NotFound, Status, Unsaved, WrongNumber
from support import Case

LIBRARY = os.environ.get("JDOC_LIBRARY", "")


def load_tests(loader: unittest.TestLoader, tests: unittest.TestSuite, pattern: Any) -> unittest.TestSuite:
    return tests if LIBRARY else unittest.TestSuite()


class Stores(Case):
    def limit(self, length: int) -> None:
        """Keeps every file of this process from growing beyond this length."""
        most = resource.getrlimit(resource.RLIMIT_FSIZE)
        before = signal.signal(signal.SIGXFSZ, signal.SIG_IGN)
        self.addCleanup(signal.signal, signal.SIGXFSZ, before)
        self.addCleanup(resource.setrlimit, resource.RLIMIT_FSIZE, most)
        resource.setrlimit(resource.RLIMIT_FSIZE, (length, most[1]))

    def test_what_finds_no_room_in_the_file_is_not_saved(self) -> None:
        path = self.folder / "full"
        document, other, saved = self.open(path, number=1), self.open(number=2), 0
        document.set("n", 0)
        self.limit(2048)
        with self.assertRaises(Unsaved) as unsaved:
            while saved < 1000:
                saved += 1
                document.set("n", saved)
        self.assertEqual((unsaved.exception.length, unsaved.exception.saved), (saved + 1, saved))
        for call in (document.save, lambda: document.answer(other.hello())):
            with self.assertRaises(Unsaved):
                call()
        self.assertEqual((document.status(), document.get("n")), (Status(1, saved + 1, saved), saved))
        resource.setrlimit(resource.RLIMIT_FSIZE, (4096, -1))
        document.save()
        self.assertEqual(document.status(), Status(1, saved + 1, saved + 1))
        document.close()
        self.assertEqual(self.open(path).get("n"), saved)

    def test_what_was_not_saved_is_lost_at_the_end(self) -> None:
        path = self.folder / "full"
        document = self.open(path, number=1)
        document.set("n", 1)
        self.limit(path.stat().st_size + 4)
        with self.assertRaises(Unsaved):
            document.set("n", 2)
        document.close()
        self.assertEqual(self.open(path).get("n"), 1)

    def test_a_line_that_was_cut_off_is_cut(self) -> None:
        path = self.folder / "cut"
        with Document.open(path, number=1) as document:
            document.set("n", 1)
            document.set("n", 2)
        whole = path.read_bytes()
        path.write_bytes(whole[:-3])
        with Document.open(path) as document:
            self.assertEqual((document.get("n"), path.read_bytes()), (1, whole[: whole.index(b"\n") + 1]))
            document.set("n", 2)
        self.assertEqual(path.read_bytes(), whole)

    def test_the_program_goes_on_from_the_file_and_back(self) -> None:
        path, program = self.folder / "either", os.environ["JDOC"]
        other = self.open(number=5)
        other.set("k", "theirs")
        with Document.open(path, number=1) as document:
            document.set("l", [1, {"a": "b"}])
            document.sync(other)
        with Document.open(path, program=program) as document:
            self.assertEqual((document.status(), document.get()), (Status(1, 5, 5), {"k": "theirs", "l": [1, {"a": "b"}]}))
            document.set("k", "ours")
        with Document.open(path) as document:
            self.assertEqual((document.status(), document.get("k")), (Status(1, 6, 6), "ours"))

    def test_what_cannot_be_opened_says_why(self) -> None:
        path = self.folder / "file"
        with Document.open(path, number=1) as document:
            document.set("k", 1)
            document.set("k", 2)
            with self.assertRaisesRegex(Locked, str(path)):
                Document.open(path)
        cases: list[tuple[Any, dict[str, Any], type[Died], str]] = [
            (path, {"library": self.folder / "nowhere.so"}, NoProgram, "nowhere.so"),
            (path, {"number": 2}, WrongNumber, "has 1"),
            (self.folder / "nowhere" / "file", {}, NotFound, "no such folder"),
            (self.folder, {}, Died, "no regular file"),
        ]
        for name, words, kind, why in cases:
            with self.assertRaisesRegex(kind, why):
                Document.open(name, **words)
        whole = path.read_bytes()
        path.write_bytes(whole.replace(b'["k"],2', b'["k",1],2'))
        with self.assertRaisesRegex(Damaged, f"line 2 of {path}") as damaged:
            Document.open(path)
        self.assertEqual((damaged.exception.line, damaged.exception.reason), (2, "a line of the file doesn't fit"))
        path.write_bytes(whole)
        self.assertEqual(self.open(path).get("k"), 2)
        with self.assertRaisesRegex(ValueError, "null byte"):
            Document.open("a\0b")

    def test_the_program_and_the_library_exclude_one_another(self) -> None:
        path, program = self.folder / "one", os.environ["JDOC"]
        with Document.open(path, number=1) as document:
            with self.assertRaisesRegex(Died, "another program has"):
                Document.open(path, program=program)
            document.set("k", 1)
        with Document.open(path, program=program):
            with self.assertRaises(Locked):
                Document.open(path)

    def test_a_dropped_document_is_closed(self) -> None:
        path = self.folder / "dropped"
        document: Optional[Document] = Document.open(path, number=1)
        assert document
        document.set("k", 1)
        document = None
        self.assertEqual(self.open(path).get("k"), 1)

    def test_a_file_that_is_moved_is_gone(self) -> None:
        path = self.folder / "here"
        document = self.open(path, number=1)
        document.set("k", 1)
        path.rename(self.folder / "there")
        self.assertEqual(document.get("k"), 1)
        calls: list[Any] = [lambda: document.set("k", 2), document.save, document.get]
        for call in calls:
            with self.assertRaises(Gone):
                call()
        self.assertFalse(path.exists())
        self.assertEqual(self.open(self.folder / "there").get("k"), 1)


class Forks(Case):
    def forked(self, call: Callable[[], object]) -> int:
        """The process of a child, which ends with status 0 if the call raises a `JdocError` there."""
        child = os.fork()
        if child == 0:
            status = 1
            with suppress(BaseException):
                try:
                    call()
                except JdocError:
                    status = 0
            os._exit(status)
        return child

    def test_a_document_stays_with_the_process_that_opened_it(self) -> None:
        path = self.folder / "forked"
        for file in (path, None):
            document = self.open(file, number=1)
            document.set("n", 0)

            def write() -> None:
                document.set("n", -1)

            def drop() -> None:
                document.close()
                raise JdocError

            for number in range(1, 20):
                child = self.forked(write if number % 2 else drop)
                document.set("n", number)
                self.assertEqual(os.waitpid(child, 0), (child, 0))
            self.assertEqual((document.get("n"), document.status()), (19, Status(1, 20, 20)))
            document.close()
        self.assertEqual(self.open(path).get("n"), 19)

    def test_a_child_that_lives_on_does_not_keep_the_file(self) -> None:
        path = self.folder / "kept"
        document = self.open(path, number=1)
        document.set("n", 1)
        (wait, end), (told, ready) = os.pipe(), os.pipe()

        def live() -> None:
            os.close(end)
            os.write(ready, b".")
            os.read(wait, 1)
            raise JdocError

        child = self.forked(live)
        os.read(told, 1)
        document.close()
        with Document.open(path) as again:
            self.assertEqual(again.get("n"), 1)
        for it in (wait, end, told, ready):
            os.close(it)
        self.assertEqual(os.waitpid(child, 0), (child, 0))


class Interrupt(Exception):
    """What a signal handler raises."""


class Interrupts(Case):
    def setUp(self) -> None:
        super().setUp()
        # Whether the handler may raise, which it does once.
        self.is_armed = False
        self.raised = 0
        self.handle: Callable[[], None] = self.interrupt
        before = signal.signal(signal.SIGALRM, lambda *_: self.handle())
        self.addCleanup(signal.signal, signal.SIGALRM, before)
        self.addCleanup(signal.setitimer, signal.ITIMER_REAL, 0)

    def interrupt(self) -> None:
        if self.is_armed:
            self.is_armed = False
            self.raised += 1
            raise Interrupt

    def interrupted(self, call: Callable[[], Any]) -> Any:
        """The result of the call, or None if the handler ended it."""
        try:
            self.is_armed = True
            result = call()
            self.is_armed = False
            return result
        except Interrupt:
            return None

    def test_a_write_is_whole_or_not_there(self) -> None:
        path = self.folder / "storm"
        document = self.open(path, number=1)
        saved = 0
        signal.setitimer(signal.ITIMER_REAL, 50e-6, 50e-6)
        for number in range(1, 3001):
            if self.interrupted(lambda: document.set("n", number)):
                saved = number
        signal.setitimer(signal.ITIMER_REAL, 0)
        self.assertGreater(self.raised, 10)
        length = len(document)
        self.assertGreaterEqual(document.get("n"), saved)
        self.assertEqual(document.status(), Status(1, length, length))
        self.assertEqual(path.read_bytes().count(b"\n"), length)
        document.set("n", "the end")
        document.close()
        with Document.open(path, program=os.environ["JDOC"]) as program:
            self.assertEqual((program.get("n"), len(program)), ("the end", length + 1))

    def test_an_interrupted_opening_leaves_no_lock(self) -> None:
        path = self.folder / "opened"
        with Document.open(path, number=1) as document:
            for number in range(100):
                document.set("n", number)
        for round in range(300):
            signal.setitimer(signal.ITIMER_REAL, 1e-6 + round * 3e-6)
            self.interrupted(lambda: Document.open(path, number=1))
            signal.setitimer(signal.ITIMER_REAL, 0)
            with Document.open(path) as document:
                self.assertEqual(len(document), 100)
        self.assertGreater(self.raised, 10)

    def test_a_handler_that_uses_the_document_takes_no_reply(self) -> None:
        document = self.open(self.folder / "used", number=1)
        document.set("n", 7)

        def use() -> None:
            if self.is_armed:
                self.is_armed = False
                self.raised += 1
                document.keys()

        self.handle = use
        signal.setitimer(signal.ITIMER_REAL, 50e-6, 50e-6)
        for _ in range(3000):
            with suppress(JdocError):
                self.is_armed = True
                self.assertEqual(document.get("n"), 7)
        signal.setitimer(signal.ITIMER_REAL, 0)
        self.assertGreater(self.raised, 10)


if __name__ == "__main__":
    unittest.main()
