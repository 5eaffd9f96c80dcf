"""A list of notes that several devices share, each in a file of its own. README.md beside this walks through it."""
import argparse
import os
import selectors
import sys
from pathlib import Path
from typing import Optional

from jdoc import Document, JdocError, Refused, Unsaved
from link import Address, Links
from notes import Note, Notes
from screen import HELP, LETTERS, Screen, view_of


class Mistake(Exception):
    """The user typed something that can't be done."""


class Application:
    """A device: its document, its links, and what the user sees and types."""

    def __init__(self, name: str, document: Document, listen: Optional[Address], connect: Optional[Address]) -> None:
        self._name, self._document = name, document
        self._notes, self._screen = Notes(document), Screen()
        self._links = Links(document, listen, connect)
        # What numbers refer to: the notes as they were last shown.
        self._shown: list[Note] = []
        self._message, self._typed, self._has_ended = "", b"", False

    def run(self) -> None:
        """Does what the user types and what comes over links, until the input ends."""
        self._links.go_online()
        self._links.selector.register(sys.stdin, selectors.EVENT_READ, self._read)
        is_typing = False
        while not self._has_ended:
            is_seeking = self._links.seek()
            self._show(is_typing)
            events = self._links.selector.select(0 if self._links.has_frames() else 1 if is_seeking else None)
            is_typing = all(key.fileobj is not sys.stdin for key, _ in events)
            for key, mask in events:
                key.data(mask)
            self._links.go_on()
        self._links.go_offline()

    def _show(self, is_typing: bool) -> None:
        where = f"online, {len(self._links.links)} linked" if self._links.is_online else "offline"
        title = f" {self._name} · device {self._document.number} · {where} "
        self._shown = self._notes.all()
        self._screen.show(view_of(title, self._shown, self._message or self._links.fault), is_typing)

    def _read(self, _: int) -> None:
        data = os.read(sys.stdin.fileno(), 65536)
        self._has_ended = not data
        *lines, self._typed = (self._typed + data).split(b"\n")
        for line in lines:
            self._do(line.decode(errors="replace").strip())
            # If two lines come at once, the second refers to what the first one left.
            self._shown = self._notes.all()

    def _do(self, line: str) -> None:
        """Does what a line says. What can't be done is shown."""
        word, _, rest = line.partition(" ")
        self._message = self._links.fault = ""
        try:
            if word == "quit":
                self._has_ended = True
            elif word == "offline":
                self._links.go_offline()
            elif word == "online":
                self._links.go_online()
            elif word in ("up", "down"):
                self._screen.scroll(1 if word == "down" else -1)
            elif word:
                self._write(word, rest.strip())
                self._links.tell_news()
        except (Mistake, Refused, Unsaved, OSError) as fault:
            self._message = str(fault)

    def _write(self, word: str, rest: str) -> None:
        if self._links.is_behind:
            raise Mistake("this file is older than what other devices have of it: go on with a new one")
        number, _, more = rest.partition(" ")
        text = rest if word == "add" else more.strip()
        if word in ("add", "change") and not text:
            raise Mistake("a note has a text")
        if word == "add":
            self._notes.add(text)
            self._screen.scroll_to_end()
        elif word == "change":
            self._notes.change(self._note(number), text)
        elif word in ("done", "undo"):
            self._notes.tick(self._note(number), word == "done")
        elif word == "delete":
            self._notes.delete(self._note(number))
        elif word == "move":
            note, to = self._note(number), self._note(text)
            others = [it for it in self._shown if it != note]
            self._notes.move(note, [None, *others][self._shown.index(to)])
        elif word == "keep":
            kept = dict(zip(LETTERS, self._note(number).texts)).get(text)
            if not kept:
                raise Mistake(f"no text has the letter '{text}'")
            self._notes.change(self._note(number), kept[0])
        else:
            raise Mistake(HELP)

    def _note(self, number: str) -> Note:
        if not (number.isdecimal() and 1 <= int(number) <= len(self._shown)):
            raise Mistake(f"no note has the number '{number}'")
        return self._shown[int(number) - 1]


def _address(text: str) -> Address:
    host, _, port = text.rpartition(":")
    return host or "127.0.0.1", int(port)


def main() -> None:
    parser = argparse.ArgumentParser(prog="notes", description="A list of notes that several devices share.")
    parser.add_argument("file", type=Path, help="where this device keeps its notes")
    parser.add_argument("--listen", type=_address, metavar="PORT", help="wait for other devices at this port")
    parser.add_argument("--connect", type=_address, metavar="HOST:PORT", help="go to a device that waits there")
    parser.add_argument("--number", type=int, help="this device's, which no other has; else a new file draws one")
    words = parser.parse_args()
    try:
        with Document.open(words.file, number=words.number) as document:
            Application(words.file.stem, document, words.listen, words.connect).run()
    except (JdocError, OSError) as fault:
        sys.exit(f"notes: {fault}")
    except KeyboardInterrupt:
        pass


main()
