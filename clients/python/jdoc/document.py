"""A document, and what goes in and out of it."""
from __future__ import annotations

import json
import os
import secrets
import threading
from typing import Any, List, NamedTuple, Optional, Sequence, Tuple, Union

from .child import Child
from .errors import Died, JdocError, Lost, OtherProcess, Refused, Unsaved
from .library import Library
from .values import MOST_DEPTH, ItemId, Part, Path, Plain, Scalar, Value, Words, checked, expression, from_one


class Answer(NamedTuple):
    """What a peer lacks. `more`: it lacks more, and says hello again once it has received this. `beyond`: the peer knows operations of this
    device that aren't here. The file was rolled back, or the number is used twice: write no more under it."""

    lines: bytes
    more: bool
    beyond: bool


class BadLine(NamedTuple):
    """A line of a bundle, counted from 1, and why it wasn't taken, as in `Refused.code`."""

    line: int
    code: str


class Receipt(NamedTuple):
    """The outcome of a bundle: how many of its lines were taken, how many operations on these were refused, the first one of them, and the
    line at which reading stopped. What wasn't refused is applied, waits for others, or was known."""

    taken: int
    refused: int
    first_refused: Optional[BadLine]
    stopped: Optional[BadLine]


class Status(NamedTuple):
    """The device's number, how many operations the document has, and how many of them are saved."""

    number: int
    length: int
    saved: int


# More elements than any document has: each of its 1,048,576 operations adds 33 at most.
MOST_ELEMENTS = 1_048_576 * (MOST_DEPTH + 1)
# The most bytes of a request, with its line feed, and the greatest number of a device.
MOST_BYTES = 33_554_432
MOST_NUMBER = 4_294_967_295
# Where `build_library` puts the library, and where the repository is if this package lies in it.
HERE = os.path.dirname(os.path.abspath(__file__))
BUILT = os.path.join(HERE, "libjdoc.so")
TOP = os.path.dirname(os.path.dirname(os.path.dirname(HERE)))


class Document:
    """A replica of a document, in a program of its own, or in this process with the library. All calls may come from several threads: each
    request gets its reply before the next one is sent. What the engine refuses is raised as `Refused`. Any call may raise `Died`, and one
    that writes or receives may raise `Unsaved` and `Lost`; with the library `answer` may too, while something isn't saved.

    If a signal handler raises an exception, such as `KeyboardInterrupt`, during a call, it isn't known whether what was asked for is done;
    the document goes on. A document belongs to the process that opened it: in a process that was forked from that, each call raises
    `OtherProcess`, and `close` does nothing. A document that nothing refers to any more is closed.

    A position is counted when the call is handled. To be sure of the item that was seen, use its id, from `items` or from `insert`.
    """

    def __init__(self, child: Union[Child, Library]) -> None:
        """For a program that was started, or the library; `open` calls this."""
        self._child = child
        self._process = os.getpid()
        self._lock = threading.RLock()
        self._is_closed = False
        try:
            self.number: int = self._reply("ready", b"")[1]
        except Died:
            raise
        except BaseException:
            # An exception from a signal handler: a launcher that is still compiling wouldn't notice that its input has ended.
            child.end("was stopped before it was ready")
            raise

    @classmethod
    def open(
        cls, path: Union[None, str, os.PathLike[str]] = None, *, number: Optional[int] = None, program: Optional[Words] = None,
        library: Union[None, str, os.PathLike[str]] = None
    ) -> Document:
        """Opens the document that is kept in the file `path`, which is created if it doesn't exist, or one in memory.

        `number` is this device's, from 1 to 4294967295, which no other device of the document has. A file in which the device has
        written knows the number; else a random one is used if none is given.

        `program` is the path of the program that keeps the document, or its words; `library` is the shared object that keeps it in this
        process. If neither is given, the environment's `JDOC_LIBRARY` is the library's path, or else its `JDOC` is the program's; or else
        it is the library that `build_library` made, or the launcher of the repository that this package lies in (whose first start
        compiles the program, in a minute or two), or else `jdoc` on the PATH.
        """
        if number is None and not (path is not None and _knows_number(path)):
            number = 1 + secrets.randbelow(MOST_NUMBER)
        if number is not None:
            if isinstance(number, bool) or not isinstance(number, int):
                raise TypeError(f"a device's number is an int: {number!r}")
            if not 1 <= number <= MOST_NUMBER:
                raise ValueError(f"a device's number is from 1 to {MOST_NUMBER}: {number}")
        if library := library or (None if program else _library()):
            return cls(Library(os.fspath(library), None if path is None else os.path.abspath(path), number))
        program = program or os.environ.get("JDOC") or _launcher() or "jdoc"
        words = [os.fspath(program)] if isinstance(program, (str, os.PathLike)) else [*program]
        words.append("serve")
        if path is not None:
            words.append(os.path.abspath(path))
        if number is not None:
            words += ["--number", str(number)]
        return cls(Child(words))

    def close(self) -> None:
        """Ends the program. What it couldn't save, as `Unsaved` said, is lost."""
        if self._process != os.getpid():
            return
        with self._lock:
            if not self._is_closed:
                self._is_closed = True
                self._child.close()

    def __enter__(self) -> Document:
        return self

    def __exit__(self, *_: object) -> None:
        self.close()

    def set(self, path: Path, value: Value) -> ItemId:
        """Writes a value over everything at the path, and returns the operation's id.

        Each limit is checked before anything is written, for each part of a dict or a list: the bytes of keys and texts, the depth, and
        that a number is whole in 64 bits. `Refused` then says which part it is, and nothing has changed.

        A dict or a list is written part by part, each as an operation of its own, so a peer may see some of it. What ends the call between
        two parts leaves those before it: a full history (E8), an allocation that failed (E1), `Unsaved`, `Lost`, `Died`, and an exception
        from a signal handler.
        """
        at = expression(path)
        return self._write_checked("assign", at, value, len(at))

    def insert(self, path: Path, position: int, value: Value) -> ItemId:
        """Inserts an item into the list at the path so that it has this position, and returns its id. A position past the end is
        refused (E3). The value is checked, and written, as by `set`."""
        at = [*expression(path), from_one(position) - 1]
        return self._write_checked("insert", at, value, len(at))

    def insert_after(self, path: Path, value: Value) -> ItemId:
        """Inserts an item right after the one at the path, and returns its id. The value is checked, and written, as by `set`."""
        at = expression(path)
        return self._write_checked("insert", at, value, len(at))

    def append(self, path: Path, value: Value) -> ItemId:
        """Inserts an item at the end of the list at the path, and returns its id. It asks for all ids of the list. The value is checked,
        and written, as by `set`."""
        at = expression(path)
        plain = checked(value, len(at) + 1)
        with self._turn():
            before: List[object] = [*self.items(path)[-1:]] or [0]
            return self._write("insert", at + before, plain)

    def delete(self, path: Path) -> ItemId:
        """Deletes what is at the path, and returns the operation's id. What others write there concurrently stays."""
        return self._make("delete", expression(path))

    def _write_checked(self, command: str, place: List[object], value: Value, depth: int) -> ItemId:
        plain = checked(value, depth)
        with self._turn():
            return self._write(command, place, plain)

    def _write(self, command: str, place: List[object], value: Plain, part: Part = ()) -> ItemId:
        """Writes a value that was checked, with all its parts. `part` is the way to it from the value that the caller gave."""
        try:
            made = self._make(command, place, {} if isinstance(value, dict) else [] if isinstance(value, list) else value)
        except Refused as fault:
            raise Refused(fault.code, part) from None
        at = place if command == "assign" else [*place[:-1], made]
        if isinstance(value, dict):
            for key, it in value.items():
                self._write("assign", [*at, key], it, (*part, key))
        elif isinstance(value, list):
            before: object = 0
            for position, it in enumerate(value):
                before = self._write("insert", [*at, before], it, (*part, position))
        return made

    def _make(self, *command: object) -> ItemId:
        return ItemId(*self._ask("made", *command)[1])

    def get(self, *path: Path, depth: int = MOST_DEPTH, elements: int = 100_000) -> Any:
        """What is at the path, as plain values: a dict, a list, a scalar, or None if nothing is present.

        If several things are present at once, after concurrent writes, it is `{"?": "conflict"}` with those of `"values"`, `"map"` and
        `"list"` that are present. What is deeper than `depth`, or after the first `elements` elements, is cut: a dict then has
        `"?": "cut"`, and a list ends in `{"?": "cut"}`. A key of the document that begins with `?` gets one more in front.
        """
        return self._ask("glance", "glance", expression(*path), depth, elements)[2]

    def to_json(self) -> str:
        """The whole document as text, in the form of `get`."""
        return json.dumps(self.get(elements=MOST_ELEMENTS), ensure_ascii=False, indent=2)

    def values(self, *path: Path) -> List[Tuple[ItemId, Scalar]]:
        """The values of the register at the path with the ids of their writes, in ascending id order. More than one is a conflict."""
        return [(ItemId(*it), value) for it, value in self._ask("reading", "values", expression(*path))[2]]

    def keys(self, *path: Path) -> List[str]:
        """The keys of the map at the path, in ascending byte order."""
        keys: List[str] = self._ask("reading", "keys", expression(*path))[2]
        return keys

    def items(self, *path: Path) -> List[ItemId]:
        """The ids of the items of the list at the path, in list order."""
        return [ItemId(*it) for it in self._ask("reading", "items", expression(*path))[2]]

    def conflicts(self, *path: Path) -> List[Tuple[ItemId, str]]:
        """What keeps the element at the path visible, in ascending id order: each live write at it or beneath, and whether that makes it a
        `"map"`, a `"list"` or a register, `"reg"`. More than one register, or different ones of these, are a conflict."""
        return [(ItemId(*it), tag) for it, tag in self._ask("reading", "conflicts", expression(*path))[2]]

    def hello(self) -> bytes:
        """A line that tells a peer what is known here."""
        return _line(self._ask("hello", "hello"))

    def answer(self, hello: bytes) -> Answer:
        """What the peer that said this hello lacks, of what is saved here. A line that isn't a hello is refused (E22)."""
        try:
            text = hello.decode()
        except UnicodeDecodeError as fault:
            raise Refused("E22") from fault
        _, lines, more, beyond = self._ask("bundle", "answer", text)
        return Answer(lines.encode(), more, beyond)

    def receive(self, lines: bytes) -> Receipt:
        """Receives a whole bundle, as `answer` of a peer gave it, and saves what is applied. Bound its length before it is read whole:
        `answer` gives 4194304 bytes at most, and a bundle too long for a request raises `ValueError`."""
        try:
            text = lines.decode()
        except UnicodeDecodeError as fault:
            # As with any bad line, the lines before it are taken.
            whole = lines[: lines.rfind(b"\n", 0, fault.start) + 1]
            receipt = self.receive(whole)
            return receipt if receipt.stopped else receipt._replace(stopped=BadLine(whole.count(b"\n") + 1, "E22"))
        _, taken, refused, stopped = self._ask("received", "receive", text)
        count, *first = refused or [0]
        return Receipt(taken, count, BadLine(*first) if first else None, BadLine(*stopped) if stopped else None)

    def sync(self, other: Document) -> None:
        """Exchanges with another document of this program, both ways, until neither has more. Raises the first refusal."""
        for to, source in ((self, other), (other, self)):
            more = True
            while more:
                lines, more, _ = source.answer(to.hello())
                receipt = to.receive(lines)
                if bad := receipt.first_refused or receipt.stopped:
                    raise Refused(bad.code)

    def save(self) -> None:
        """Saves what isn't saved, after `Unsaved`."""
        self._ask("saved", "save")

    def status(self) -> Status:
        """The number, how many operations there are, and how many of them are saved."""
        return Status(*self._ask("status", "status")[1:])

    def __len__(self) -> int:
        """How many operations the document has."""
        return self.status().length

    def __bool__(self) -> bool:
        """True, even if there is no operation yet."""
        return True

    def _turn(self) -> threading.RLock:
        """What a thread holds while it asks. Raises `OtherProcess` in another process, where a thread that is gone may hold it for ever."""
        if self._process != (here := os.getpid()):
            raise OtherProcess(self._process, here)
        return self._lock

    def __repr__(self) -> str:
        """The number and the length, or why there is none. It asks for the length."""
        try:
            state = f"{len(self)} operations"
        except (JdocError, ValueError) as fault:
            state = str(fault)
        return f"<jdoc.Document number {self.number}: {state}>"

    def _ask(self, word: str, *request: object) -> List[Any]:
        line = _line(request)
        if len(line) > MOST_BYTES:
            raise ValueError(f"a request has at most {MOST_BYTES} bytes, and this one {len(line)}")
        return self._reply(word, line)

    def _reply(self, word: str, line: bytes) -> List[Any]:
        """The program's reply to this line. A reply that doesn't begin with the word is raised as an exception."""
        with self._turn():
            if self._is_closed:
                raise ValueError("the document is closed")
            said = self._child.ask(line)
            reply: List[Any] = json.loads(said) if said.startswith(b'["') else [None]
            if reply[0] == word:
                return reply
            if reply[0] == "refused":
                raise Refused(reply[1])
            if reply[0] == "unsaved":
                raise Unsaved(*reply[1:])
            if reply[0] == "lost":
                raise Lost("a sync of the file failed: open the document again")
            raise Died(self._child.end(f"said {said[:200]!r}, where {word!r} was due"))


def _line(parts: Sequence[object]) -> bytes:
    """A line of JSON. A text with half a surrogate pair can't be in a document: it raises `UnicodeEncodeError`."""
    return json.dumps(parts, ensure_ascii=False, allow_nan=False, separators=(",", ":")).encode() + b"\n"


def _library() -> Optional[str]:
    """The path of the library, if the environment names one, or if it names no program and one was built."""
    if library := os.environ.get("JDOC_LIBRARY"):
        return library
    return BUILT if not os.environ.get("JDOC") and os.path.exists(BUILT) else None


def _launcher() -> Optional[str]:
    """The path of the repository's launcher, if this package lies in a repository."""
    launcher = os.path.join(TOP, "jdoc")
    return launcher if os.path.exists(os.path.join(TOP, "crates.txt")) and os.access(launcher, os.X_OK) else None


def _knows_number(path: Union[str, os.PathLike[str]]) -> bool:
    """Whether the file has an own entry, by which the program knows its number (docs/FORMATS.md, 'Lines of a journal')."""
    try:
        with open(path, "rb") as lines:
            return any(it.startswith(b'["own",') and it.endswith(b"\n") for it in lines)
    except OSError:
        # If it exists but can't be read, the program says why.
        return False
