"""What can go wrong: every exception of this package is a `JdocError`."""
from __future__ import annotations

from typing import Optional, Tuple, Union

# Each refusal of the engine: its name, and when it occurs, in the words of docs/RULES.md, 'Refusals', which also says what to do then.
REFUSALS = {
    "E1": ("NoMemory", "an allocation failed"),
    "E2": ("AtHead", "a step from a head; a question, or a command's assign or delete, at a head"),
    "E3": ("PastEnd", "Idx past the last visible item, or the id of an item that the list never had"),
    "E4": ("NotInList", "an insert at the root or at a field, commanded or received"),
    "E5": ("TooDeep", "a path of more than 32 keys"),
    "E6": ("KeyTooLong", "a map key of more than 256 bytes"),
    "E7": ("TextTooLong", "a text of more than 4,096 bytes"),
    "E8": ("HistoryFull", "the history has 1,048,576 operations, at a command or a delivery"),
    "E9": ("QueueFull", "no slot of the queue is free at a submit"),
    "E10": ("SerialEnd", "the client has used all its serials"),
    "E11": ("Foreign", "a poll of a serial that the client never took, or with a ticket of another client or replica number"),
    "E12": ("BadFloor", "a submission's floor is above the length of the history when it is handled"),
    "E13": ("UnknownReplica", "a received operation is ready, its replica isn't in the table, and the table has 256 numbers"),
    "E14": ("BadCounter", "its counter isn't 1 plus the greatest in its vector, or is past the last counter"),
    "E15": ("BrokenChain", "the counter that its vector names for its own replica isn't the greatest applied one"),
    "E16": ("NamesNothing", "its vector names for some replica a counter above 0 that none of that replica's applied operations has"),
    "E17": ("NotClosed", "an applied operation that a counter of its vector names has a vector that isn't at most this one"),
    "E18": (
        "BadPlace",
        "alone: an assign or delete at a head, or an item of the place that its vector doesn't cover; against the history: an "
        "item of the place that no applied insert put into that very list",
    ),
    "E19": ("InboxFull", "no slot is left in the inbox: not ready with 4,096 or more waiting, or ready with more than 4,096 waiting"),
    "E20": ("OwnName", "an operation of the own replica that isn't applied here"),
    "E21": ("NotWhole", "a number that isn't whole in 64 bits, where a value is expected"),
    "E22": ("BadLine", "a line or a value of another form"),
    "E23": ("NoReaderPlace", "the published copies gave no place to a reader"),
    "E24": ("BadConfig", "a configuration outside the limits, members that aren't distinct, or an own number that isn't a member"),
    "E25": ("NoReading", "the published copies gave no reading"),
    "E26": ("Closed", "the engine is closed: a submit, a reading, or the poll of a ticket that wasn't answered. No world has it"),
}


class JdocError(Exception):
    """The base of all exceptions of this package."""


class Refused(JdocError):
    """A request was refused, and nothing has changed. `code` is the refusal's number, such as `"E3"`. If it concerns a part of a dict or a
    list that was to be written, `part` is the way to it by keys and positions, such as `("body", 0)`; else it is empty.

    Only a full history (E8) or a failed allocation (E1) can refuse such a part after others were written; those stay.
    """

    def __init__(self, code: str, part: Tuple[Union[str, int], ...] = ()) -> None:
        super().__init__(code, part)
        self.code, self.part = code, part
        self.name, self.meaning = REFUSALS.get(code, ("Unknown", "a refusal that this package doesn't know"))

    def __str__(self) -> str:
        return f"{self.code} {self.name}: {self.meaning}" + (f", in the value at {list(self.part)!r}" if self.part else "")


class Unsaved(JdocError):
    """What was asked for is in the document, but only `saved` of its `length` operations are in the file. Don't write it again:
    `save`, or the next write, saves it too. Of a dict or a list the document then has what was written until here, as `get` shows."""

    def __init__(self, length: int, saved: int) -> None:
        super().__init__(length, saved)
        self.length, self.saved = length, saved

    def __str__(self) -> str:
        return f"in the document, but not saved: the file has {self.saved} of {self.length} operations"


class Lost(JdocError):
    """A sync of the file failed, so it isn't known what is in it, and the program ends. Open the document again: what was called saved is
    there."""


class Died(JdocError):
    """The program, or the document in the library, couldn't be started, or it ended; the message says why, with what the program said on
    standard error. It isn't known whether a request that was under way was done. What was called saved before is saved."""


class NoProgram(Died):
    """There is no such program or library, or it can't be started."""


class NotFound(Died):
    """There is no folder for the file."""


class Locked(Died):
    """Another program has the file, or another document of this process. `holder` is the process that has it, where the system tells."""

    def __init__(self, text: str, holder: Optional[int] = None) -> None:
        super().__init__(text, holder)
        self.text, self.holder = text, holder

    def __str__(self) -> str:
        return self.text


class WrongNumber(Died):
    """The file is of another device: `number` is that device's, if it is known."""

    def __init__(self, text: str, number: Optional[int] = None) -> None:
        super().__init__(text, number)
        self.text, self.number = text, number

    def __str__(self) -> str:
        return self.text


class Damaged(Died):
    """A line of the file isn't one that a document writes there: the file was changed, or it isn't a document. The file stays as it was.
    `line` counts from 1, and `reason` is the refusal's number, such as `"E22"`, if it is known."""

    def __init__(self, text: str, line: int, reason: Optional[str] = None) -> None:
        super().__init__(text, line, reason)
        self.text, self.line, self.reason = text, line, reason

    def __str__(self) -> str:
        name, meaning = REFUSALS.get(self.reason or "", ("", ""))
        return f"{self.text} ({name}: {meaning})" if name else self.text


class OtherProcess(JdocError):
    """The document was opened in another process. After a fork the document stays with the process that opened it: open another one, with a
    file and a number of its own, and exchange, or let that process do the writing."""

    def __init__(self, opened: int, used: int) -> None:
        super().__init__(opened, used)
        self.opened, self.used = opened, used

    def __str__(self) -> str:
        return f"the document belongs to process {self.opened}, which opened it, and this is process {self.used}"


class Gone(JdocError):
    """The file was moved, deleted, replaced or changed by others while it was open, so what was asked for isn't in the file of that name.
    The document is closed. Find out what became of the file before you open one of that name."""
