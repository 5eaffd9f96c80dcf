"""Documents beside forks, and documents that nobody closes."""
from __future__ import annotations

import os
import signal
import subprocess
import sys
import threading
import time
import unittest
from pathlib import Path
from typing import Any, Callable

from jdoc import Died, Document, OtherProcess
from support import TOP, Case

ENVIRONMENT = {**os.environ, "PYTHONPATH": str(TOP / "clients/python")}


def forked(call: Callable[[], Any]) -> str:
    """What a call comes to in a process that is forked for it: the name of its exception, or else what it returns."""
    near, far = os.pipe()
    child = os.fork()
    if not child:
        signal.alarm(60)
        try:
            said = str(call())
        except BaseException as fault:
            said = type(fault).__name__
        os.write(far, said.encode())
        os._exit(0)
    os.close(far)
    with open(near, "rb") as file:
        said = file.read().decode()
    os.waitpid(child, 0)
    return said


class Uses(Case):
    def test_each_call_in_a_forked_process_is_refused_there(self) -> None:
        document, other = self.open(self.folder / "file", number=1), self.open(number=2)
        document.set("l", [0])
        calls: list[Callable[[], Any]] = [
            document.get, document.keys, document.hello, document.save, document.status, lambda: document.set("k", 1),
            lambda: document.set("k", {"a": 1}), lambda: document.append("l", 1), lambda: document.insert("l", 0, 1),
            lambda: document.delete("l"), lambda: document.receive(b""), lambda: document.sync(other), lambda: len(document),
        ]
        for call in calls:
            self.assertEqual(forked(call), "OtherProcess")
        self.assertEqual(forked(document.close), "None")
        document.set("k", 1)
        self.assertEqual((document.get(), len(document)), ({"k": 1, "l": [0]}, 3))

    def test_the_exception_names_both_processes(self) -> None:
        document = self.open(number=1)
        document._process += 1
        with self.assertRaises(OtherProcess) as fault:
            document.get()
        document._process -= 1
        self.assertEqual((fault.exception.opened, fault.exception.used), (os.getpid() + 1, os.getpid()))
        self.assertIn(f"process {os.getpid() + 1}, which opened it", str(fault.exception))

    def test_a_fork_while_a_thread_asks_is_told_too(self) -> None:
        document, is_held, is_over = self.open(number=1), threading.Event(), threading.Event()

        def hold() -> None:
            with document._lock:
                is_held.set()
                is_over.wait(60)

        threads = self.apart(hold)
        is_held.wait(60)
        self.assertEqual(forked(document.get), "OtherProcess")
        self.assertEqual(forked(document.close), "None")
        is_over.set()
        self.join(threads)


class Pipes(Case):
    def start(self, code: str, *words: Any) -> subprocess.Popen[str]:
        """A program in Python, which has this code and these words."""
        process = subprocess.Popen(
            [sys.executable, "-c", code, *map(str, words)], env=ENVIRONMENT, stdin=subprocess.PIPE, stdout=subprocess.PIPE, text=True
        )
        self.addCleanup(process.__exit__, None, None, None)
        self.addCleanup(process.kill)
        return process

    def open_once_free(self, path: Path) -> Document:
        """Opens the file as soon as the program that had it has noticed that its input has ended."""
        for _ in range(300):
            try:
                return self.open(path)
            except Died:
                time.sleep(0.1)
        raise AssertionError("the file isn't given back")

    def test_a_forked_process_does_not_hold_up_a_close(self) -> None:
        path = self.folder / "file"
        document = self.open(path)
        document.set("k", 1)
        process, (near, far) = document._child._process, os.pipe()
        child = os.fork()
        if not child:
            # It lives until the other end is closed.
            os.close(far)
            os.read(near, 1)
            os._exit(0)
        document.close()
        self.assertEqual(process.returncode, 0)
        with Document.open(path) as document:
            self.assertEqual(document.get("k"), 1)
        os.close(far)
        os.close(near)
        os.waitpid(child, 0)

    def test_a_worker_of_a_killed_application_does_not_hold_its_file(self) -> None:
        path = self.folder / "file"
        application = self.start("""if True:
            import os, sys, jdoc
            document = jdoc.Document.open(sys.argv[1])
            document.set("k", 1)
            if os.fork():
                print("forked", flush=True)
            sys.stdin.read()
        """, path)
        assert application.stdout
        self.assertEqual(application.stdout.readline(), "forked\n")
        application.kill()
        application.wait()
        self.assertEqual(self.open_once_free(path).get("k"), 1)

    def test_a_forked_process_that_ends_leaves_the_program_alone(self) -> None:
        application = self.start("""if True:
            import os, sys, jdoc
            document = jdoc.Document.open(number=1)
            if not (child := os.fork()):
                # Runs what the interpreter does at its end.
                sys.exit(7)
            assert os.waitstatus_to_exitcode(os.waitpid(child, 0)[1]) == 7
            document.set("k", 1)
            print(document.get("k"))
        """)
        self.assertEqual((application.communicate(timeout=60)[0], application.returncode), ("1\n", 0))

    def test_a_document_that_is_dropped_ends_its_program(self) -> None:
        path = self.folder / "file"
        Document.open(path).set("k", 1)
        document = Document.open(path)
        process = document._child._process
        del document
        self.assertEqual(process.returncode, 0)

        def fail() -> None:
            document = Document.open(path)
            raise LookupError(document.get("k"))

        with self.assertRaisesRegex(LookupError, "1"):
            fail()
        self.assertEqual(self.open(path).get("k"), 1)


if __name__ == "__main__":
    unittest.main()
