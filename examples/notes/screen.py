"""What is shown, on a terminal or as plain lines."""
import shutil
import sys
import textwrap
import unicodedata
from typing import NamedTuple, Sequence

from notes import Note

HELP = "add TEXT · change N TEXT · done N · undo N · move N TO · delete N · keep N a · up · down · offline · online · quit"
LETTERS = "abcdefghijklmnopqrstuvwxyz"
# Styles, as a terminal numbers them.
PLAIN, DIM, TITLE, CONFLICT = "0", "2", "1;7", "33"
# What joins the parts of an emoji is the only character that isn't printable and is shown.
JOINER = "\u200d"
Line = tuple[str, str]


class View(NamedTuple):
    """What there is to show: a title, the notes' lines with their styles, and a message, which may be empty."""

    title: str
    lines: list[Line]
    message: str


def view_of(title: str, notes: Sequence[Note], message: str) -> View:
    """What to show of the notes: each by its number."""
    lines = []
    for number, note in enumerate(notes, 1):
        begin = f"{number:3} [{'?' if note.done is None else 'x' if note.done else ' '}]"
        if len(note.texts) == 1:
            lines.append((DIM if note.done else PLAIN, f"{begin} {note.texts[0][0]}"))
            continue
        lines.append((CONFLICT, f"{begin} {len(note.texts)} texts were written apart, keep one:"))
        for letter, (text, device) in zip(LETTERS, note.texts):
            lines.append((CONFLICT, f"        {letter}: {text} (device {device})"))
    if not notes:
        lines.append((DIM, "    nothing yet"))
    # A text may come from anyone, and nothing in it may control the terminal.
    return View(_harmless(title), [(style, _harmless(text)) for style, text in lines], _harmless(message))


def _harmless(text: str) -> str:
    return "".join(it if it.isprintable() or it == JOINER else "?" for it in text)


def cells(character: str) -> int:
    """How many columns a terminal gives to a character, at most."""
    if unicodedata.combining(character) or unicodedata.category(character) in ("Mn", "Me", "Cf"):
        return 0
    return 2 if unicodedata.east_asian_width(character) in "WF" else 1


def fitted(text: str, columns: int) -> str:
    """As much of the text as fits into so many columns, with an ellipsis if that isn't all."""
    if sum(map(cells, text)) <= columns:
        return text
    kept, room = [], columns - 1
    for it in text:
        room -= cells(it)
        if room < 0:
            break
        kept.append(it)
    return "".join(kept) + "…"


class Screen:
    """Shows views: on a terminal in place of the one before, with what is typed beneath; else one after another, if they changed."""

    def __init__(self) -> None:
        self._last: Sequence[str] = []
        # Of the notes' lines the first one that the terminal shows, and how many it showed last.
        self._first, self._room = 0, 1

    def scroll(self, pages: int) -> None:
        """Shows so many pages further down."""
        self._first = max(self._first + pages * self._room, 0)

    def scroll_to_end(self) -> None:
        self._first = sys.maxsize

    def show(self, view: View, is_typing: bool) -> None:
        """Shows this. While the user is typing, the lowest row stays as it is."""
        if sys.stdout.isatty():
            print(self._painted(view, *shutil.get_terminal_size(), is_typing), end="", flush=True)
            return
        lines = [view.title, *(text for _, text in view.lines), *([f"! {view.message}"] if view.message else [])]
        if lines != self._last:
            print(*lines, "", sep="\n", flush=True)
            self._last = lines

    def _painted(self, view: View, columns: int, rows: int, is_typing: bool) -> str:
        """What a terminal of this size has to get. The message stays, and as many of the notes' lines as there is room for."""
        messages = [(PLAIN, f"! {view.message}")] if view.message else []
        helps = [(DIM, it) for it in textwrap.wrap(HELP, columns)][: max(rows - 3 - len(messages), 0)]
        self._room = room = max(rows - 2 - len(messages) - len(helps), 1)
        self._first = first = max(min(self._first, len(view.lines) - room), 0)
        shown = view.lines[first : first + room]
        part = f"· {first + 1} to {first + len(shown)} of {len(view.lines)} lines " if len(shown) < len(view.lines) else ""
        lines = [(TITLE, view.title + part), *shown, *[(PLAIN, "")] * (room - len(shown)), *messages, *helps]
        painted = "\r\n".join(f"\x1b[{style}m{fitted(text, columns)}\x1b[0m\x1b[K" for style, text in lines)
        begin, end = ("\x1b7\x1b[H", "\x1b8") if is_typing else ("\x1b[2J\x1b[H", f"\x1b[{rows};1H> ")
        return begin + painted + end
