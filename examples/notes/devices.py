"""What the tests share: devices of the notes application, each a program of its own, over real sockets."""
from __future__ import annotations

import os
import socket
import subprocess
import sys
import tempfile
import threading
import unittest
from pathlib import Path
from typing import Callable, Sequence

HERE = Path(__file__).resolve().parent
TOP = HERE.parents[1]
os.environ.setdefault("JDOC", str(TOP / "jdoc"))
PATIENCE = 60


def free_port() -> str:
    with socket.create_server(("127.0.0.1", 0)) as server:
        return str(server.getsockname()[1])


class Device:
    """A running application. `screen` is what it showed last, without the title."""

    def __init__(self, path: Path, *words: str, before: Sequence[str] = ()) -> None:
        """Starts it, with the words of another program before its own."""
        paths = os.pathsep.join([str(TOP / "clients/python"), os.environ.get("PYTHONPATH", "")])
        environment = {**os.environ, "PYTHONPATH": paths, "PYTHONIOENCODING": "utf-8"}
        self.process = subprocess.Popen(
            [*before, sys.executable, str(HERE), str(path), *words], stdin=subprocess.PIPE, stdout=subprocess.PIPE, text=True,
            encoding="utf-8", env=environment,
        )
        self.title, self.screen, self._has_ended = "", [""], False
        self._changed = threading.Condition()
        self._reader = threading.Thread(target=self._read, daemon=True)
        self._reader.start()

    def _read(self) -> None:
        assert self.process.stdout
        screen: list[str] = []
        for line in self.process.stdout:
            if line.strip():
                screen.append(line.rstrip())
                continue
            with self._changed:
                (self.title, *self.screen), screen = screen, []
                self._changed.notify_all()
        with self._changed:
            self._has_ended = True
            self._changed.notify_all()

    def type(self, *lines: str) -> None:
        assert self.process.stdin
        self.process.stdin.write("".join(f"{it}\n" for it in lines))
        self.process.stdin.flush()

    def await_screen(self, *lines: str, title: str = "") -> None:
        """Waits until it shows these lines, beneath a title that contains this."""
        self.await_that(lambda: self.screen == [*lines] and title in self.title, f"{title} {lines}")

    def await_line(self, line: str) -> None:
        """Waits until one of the lines that it shows is this one."""
        self.await_that(lambda: line in self.screen, line)

    def await_that(self, is_shown: Callable[[], bool], what: str) -> None:
        with self._changed:
            self._changed.wait_for(lambda: is_shown() or self._has_ended, PATIENCE)
            if not is_shown():
                raise AssertionError(f"{what} isn't shown, but {self.title} {self.screen}")

    def end(self) -> int:
        """Ends it, and returns its status."""
        with self.process:
            if self.process.poll() is None:
                self.type("quit")
            status = self.process.wait(PATIENCE)
            self._reader.join(PATIENCE)
        return status


class Case(unittest.TestCase):
    """A test with a folder for the files of its devices, and a port. Its devices are ended at its end."""

    def setUp(self) -> None:
        folder = tempfile.TemporaryDirectory()
        self.addCleanup(folder.cleanup)
        self.folder, self.port = Path(folder.name), free_port()

    def device(self, name: str, *words: str, before: Sequence[str] = ()) -> Device:
        device = Device(self.folder / f"{name}.notes", *words, before=before)
        self.addCleanup(device.end)
        return device

    def pair(self, *shown: str) -> tuple[Device, Device]:
        """The kitchen and the phone, linked. Both show these notes, or none."""
        lines = shown or ["    nothing yet"]
        kitchen = self.device("kitchen", "--number", "1", "--listen", self.port)
        kitchen.await_screen(*lines, title="kitchen · device 1 · online, 0 linked")
        phone = self.device("phone", "--number", "2", "--connect", f"localhost:{self.port}")
        for it in (kitchen, phone):
            it.await_screen(*lines, title="online, 1 linked")
        return kitchen, phone
