#!/usr/bin/env python3
"""picture_of_notes.py: writes examples/notes/notes.svg, which shows the walk of examples/notes/README.md in two terminals.

Plays two devices in terminals of their own, with the program that JDOC names or that the repository has built. What they last painted
before each step of the walk is in the picture, as they painted it.
"""
from __future__ import annotations

import fcntl
import html
import os
import pty
import re
import struct
import subprocess
import sys
import tempfile
import termios
import threading
import time
from pathlib import Path

TOP = Path(__file__).resolve().parent.parent
COLUMNS, ROWS = 56, 10
# The size of a character, and the margins around a terminal and within it.
WIDE, HIGH, GAP, EDGE = 8.43, 19, 18, 10
STYLES = {"0": "#d8dee9", "2": "#7b8494", "33": "#ebcb8b", "1;7": "#ffffff"}


class Terminal:
    """A device in a terminal."""

    def __init__(self, *words: str) -> None:
        self._end, end = pty.openpty()
        fcntl.ioctl(end, termios.TIOCSWINSZ, struct.pack("HHHH", ROWS, COLUMNS, 0, 0))
        environment = {"JDOC": str(TOP / "jdoc"), **os.environ, "PYTHONPATH": str(TOP / "clients/python"), "PYTHONIOENCODING": "utf-8"}
        for it in ("COLUMNS", "LINES"):
            environment.pop(it, None)
        self._process = subprocess.Popen(
            [sys.executable, str(TOP / "examples/notes"), *words], stdin=end, stdout=end, stderr=end, env=environment
        )
        os.close(end)
        self._painted = b""
        threading.Thread(target=self._read, daemon=True).start()

    def _read(self) -> None:
        while True:
            try:
                self._painted += os.read(self._end, 65536)
            except OSError:
                return

    def type(self, *lines: str) -> None:
        for it in lines:
            before = self._painted
            os.write(self._end, f"{it}\n".encode())
            while len(self._painted) <= len(before) + len(it) + 20:
                time.sleep(0.05)
        # What comes over the link may come a moment later.
        time.sleep(2)

    def rows(self) -> list[list[tuple[str, str]]]:
        """The rows as they were last painted, each as texts with their styles."""
        last = re.split(r"\x1b\[H", self._painted.decode())[-1]
        last = re.split(r"\x1b8|\x1b\[\d+;1H", last)[0]
        return [re.findall(r"\x1b\[([\d;]*)m(.*?)\x1b\[0m", row) for row in last.split("\r\n")]

    def quit(self) -> None:
        os.write(self._end, b"quit\n")
        self._process.wait()


def drawn(rows: list[list[tuple[str, str]]], left: float, top: float) -> str:
    """A terminal as a part of a picture."""
    width, height = COLUMNS * WIDE + 2 * EDGE, ROWS * HIGH + 2 * EDGE
    parts = [f'<rect x="{left}" y="{top}" width="{width:.0f}" height="{height}" rx="6" fill="#1d222b"/>']
    for at, row in enumerate([*rows, [("0", "> ")]]):
        y = top + EDGE + at * HIGH
        for style, text in row:
            if style == "1;7":
                parts.append(f'<rect x="{left}" y="{y - 2}" width="{width:.0f}" height="{HIGH}" fill="#3b4252"/>')
            weight = ' font-weight="bold"' if style == "1;7" else ""
            parts.append(f'<text x="{left + EDGE}" y="{y + 13}" fill="{STYLES[style]}"{weight}>{html.escape(text)}</text>')
    return "\n".join(parts)


def main() -> None:
    parts: list[str] = []
    width, high = COLUMNS * WIDE + 2 * EDGE, ROWS * HIGH + 2 * EDGE
    with tempfile.TemporaryDirectory() as folder:
        kitchen = Terminal(f"{folder}/kitchen.notes", "--number", "1", "--listen", "7400")
        time.sleep(1)
        phone = Terminal(f"{folder}/phone.notes", "--number", "2", "--connect", "localhost:7400")
        time.sleep(1)

        def take(what: str) -> None:
            top = GAP + len(parts) // 3 * (high + 2 * GAP + 8)
            parts.append(f'<text x="{GAP}" y="{top + 12}" fill="#57606a" font-family="sans-serif">{html.escape(what)}</text>')
            parts.append(drawn(kitchen.rows(), GAP, top + 22))
            parts.append(drawn(phone.rows(), 2 * GAP + width, top + 22))

        kitchen.type("add Milk", "add Eggs")
        take("Linked: what one adds, the other shows.")
        kitchen.type("offline")
        kitchen.type("change 2 Six eggs", "add Bread")
        phone.type("change 2 Ten eggs", "done 1")
        take("Offline: each goes on alone.")
        kitchen.type("online")
        take("Linked again: both show all that was written, and that two texts stand at one note.")
        phone.type("keep 2 b")
        take("Settled on one, and shown by both.")
        kitchen.quit()
        phone.quit()
    size = f'width="{3 * GAP + 2 * width:.0f}" height="{GAP + len(parts) // 3 * (high + 2 * GAP + 8)}"'
    picture = f'<svg xmlns="http://www.w3.org/2000/svg" {size} font-family="monospace" font-size="14" xml:space="preserve">\n'
    (TOP / "examples/notes/notes.svg").write_text(picture + "\n".join(parts) + "\n</svg>\n", encoding="utf-8")


if __name__ == "__main__":
    main()
