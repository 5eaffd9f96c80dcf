"""Exceptions from signal handlers: wherever one ends a call, the next reply is the next call's."""
from __future__ import annotations

import os
import signal
import sys
import threading
import time
import unittest
from contextlib import suppress
from random import Random
from typing import Any, Callable

import jdoc.child
from jdoc import Died, Document
from support import Case

KEYS = 10


class Interrupt(Exception):
    """What the handlers of these tests raise."""


def interrupted(bytecode: int, call: Callable[[], Any]) -> bool:
    """Calls, and raises an exception before this bytecode of those that `child.py` runs then. Whether there were so many."""
    left = bytecode

    def trace(frame: Any, event: str, _: Any) -> Any:
        nonlocal left
        if frame.f_code.co_filename != jdoc.child.__file__:
            return None
        frame.f_trace_opcodes = True
        if event == "opcode":
            left -= 1
            if left < 0:
                raise Interrupt
        return trace

    before = sys.gettrace()
    sys.settrace(trace)
    try:
        call()
    except Interrupt:
        return True
    finally:
        sys.settrace(before)
    return False


class Interrupts(Case):
    def numbered(self) -> Document:
        """A document in which each key has a value of its own, so that a reply to another request shows."""
        document = self.open(number=1)
        for it in range(KEYS):
            document.set(str(it), it)
        return document

    def assert_it_goes_on(self, document: Document) -> None:
        for it in range(KEYS):
            self.assertEqual(document.get(str(it)), it)

    def test_an_exception_at_any_bytecode_shifts_no_reply(self) -> None:
        document, other = self.numbered(), self.open(number=2)
        # Requests and replies of several pieces.
        for it in range(40):
            other.set(("long", str(it)), "x" * 4000)
        document.sync(other)
        lines, length = other.answer(b'["hello",[]]').lines, len(document)
        calls: list[Callable[[], Any]] = [
            lambda: document.get("long"), lambda: document.receive(lines), lambda: document.get("l", 0), lambda: document.status(),
        ]
        for call in calls:
            bytecode = 0
            with suppress(LookupError, jdoc.Refused):
                while interrupted(bytecode, call):
                    self.assertEqual(document.get(str(bytecode % KEYS)), bytecode % KEYS)
                    bytecode += 1
            self.assertGreater(bytecode, 50)
            self.assert_it_goes_on(document)
        self.assertEqual(len(document), length)

    def test_an_interrupted_write_is_done_once_or_not_at_all(self) -> None:
        document, written, bytecode = self.numbered(), 0, 0
        while interrupted(bytecode, lambda: document.set("n", bytecode)):
            length, last = len(document), document.get("n")
            self.assertIn(length, (KEYS + written, KEYS + written + 1))
            if length > KEYS + written:
                self.assertEqual(last, bytecode)
            written, bytecode = length - KEYS, bytecode + 1
        self.assertEqual((document.get("n"), len(document)), (bytecode, KEYS + written + 1))
        # Those that came before anything was sent changed nothing, and those that came after did.
        self.assertGreater(written, 10)
        self.assertGreater(bytecode - written, 10)

    def test_signals_at_any_time_shift_no_reply(self) -> None:
        document, other, random, is_armed, came = self.numbered(), self.open(number=2), Random(1), False, 0
        for it in range(60):
            other.set(("long", str(it)), "x" * 4000)
        lines = other.answer(b'["hello",[]]').lines

        def raise_once(*_: Any) -> None:
            nonlocal is_armed
            if is_armed:
                is_armed = False
                raise Interrupt

        self.addCleanup(signal.signal, signal.SIGALRM, signal.signal(signal.SIGALRM, raise_once))
        self.addCleanup(signal.setitimer, signal.ITIMER_REAL, 0)
        for it in range(1000):
            key, is_long = it % KEYS, it % 4 == 0
            call: Callable[[], Any] = (lambda: document.receive(lines).taken) if is_long else lambda: document.get(str(key))
            try:
                is_armed = True
                # Some come while a bundle of several pieces is being written.
                signal.setitimer(signal.ITIMER_REAL, random.uniform(0.00005, 0.003 if is_long else 0.0003))
                found = call()
                is_armed = False
            except Interrupt:
                came += 1
            else:
                self.assertEqual(found, 60 if is_long else key)
        self.assertGreater(came, 0)
        self.assert_it_goes_on(document)
        self.assertEqual(document.receive(lines).taken, 60)
        self.assertEqual(len(document), KEYS + 60)
        # Nothing holds other threads up.
        self.join(self.apart(document.get))

    def test_a_call_that_waits_for_its_reply_can_be_ended(self) -> None:
        def time_out(*_: Any) -> None:
            raise TimeoutError

        self.addCleanup(signal.signal, signal.SIGUSR1, signal.signal(signal.SIGUSR1, time_out))
        document = self.numbered()
        for number, kind in ((signal.SIGINT, KeyboardInterrupt), (signal.SIGUSR1, TimeoutError)):
            os.kill(document._child._process.pid, signal.SIGSTOP)
            timer = threading.Timer(0.1, os.kill, (os.getpid(), number))
            timer.start()
            with self.assertRaises(kind):
                document.set("k", "was sent")
            timer.join()
            os.kill(document._child._process.pid, signal.SIGCONT)
            self.assertEqual(document.keys(), [*map(str, range(KEYS)), "k"])
            self.assert_it_goes_on(document)

    def test_a_program_that_is_not_ready_is_stopped(self) -> None:
        before, waiting = set(jdoc.child.RUNNING), list[jdoc.child.Child]()

        def give_up(*_: Any) -> None:
            raise Interrupt

        def watch() -> None:
            while not waiting:
                time.sleep(0.01)
                with suppress(RuntimeError):
                    waiting.extend(it for it in set(jdoc.child.RUNNING) - before if it._request)
            os.kill(os.getpid(), signal.SIGUSR1)

        self.addCleanup(signal.signal, signal.SIGUSR1, signal.signal(signal.SIGUSR1, give_up))
        threads = self.apart(watch)
        with self.assertRaises(Interrupt):
            # As a launcher that compiles, it doesn't read its input yet.
            Document.open(program=["sh", "-c", "exec sleep 1000"])
        self.join(threads)
        self.assertEqual([it._process.returncode for it in waiting], [-signal.SIGKILL])

    def test_a_document_is_closed_though_a_reply_is_due(self) -> None:
        document = self.numbered()
        for it in range(100):
            document.set(("long", str(it)), "x" * 4000)
        process = document._child._process
        bytecode = 0
        while not document._child._request or not document._child._request.is_sent:
            self.assertTrue(interrupted(bytecode, lambda: document.get("long")))
            bytecode += 1
        document.close()
        # It ended at a reply that nobody read, or before that, and wasn't killed.
        self.assertGreaterEqual(process.returncode, 0)

    def test_a_program_that_dies_says_so_after_an_interrupt_too(self) -> None:
        document = self.numbered()
        document._child._process.kill()
        document._child._process.wait()
        for bytecode in range(400):
            with suppress(Died):
                interrupted(bytecode, document.get)
        with self.assertRaisesRegex(Died, "ended"):
            document.get()


if __name__ == "__main__":
    unittest.main()
