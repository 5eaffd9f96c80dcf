"""The library for C in this process: one line to it, one line back, and a file that it keeps (`include/jdoc_file.h`)."""
from __future__ import annotations

import ctypes
import json
import os
import weakref
from functools import partial
from typing import Any, Dict, List, Optional, Set, Tuple

from .errors import Damaged, Died, Gone, JdocError, Locked, NoProgram, NotFound, WrongNumber

# The statuses of `jdoc_file.h` that are told apart here.
DONE, TOO_SHORT, UNSAVED, LOST, GONE, LOCKED, NOT_FOUND, DAMAGED, WRONG_NUMBER = 0, 2, 16, 17, 18, 21, 22, 26, 27

# The functions that are used: the type of what each returns, and of what it takes. Those of a request are given words that have their
# types, since converting them costs as much as the request.
POINTER, SIZE, TEXT = ctypes.c_void_p, ctypes.c_size_t, ctypes.c_char_p
FUNCTIONS: Dict[str, Tuple[Any, Optional[List[Any]]]] = {
    "jdoc_file_open": (ctypes.c_uint32, [ctypes.POINTER(POINTER), TEXT, ctypes.c_uint32]),
    # The function takes one word: the other one is the weak reference whose callback it is, or None.
    "jdoc_file_close": (ctypes.c_uint32, [ctypes.POINTER(POINTER), ctypes.py_object]),
    "jdoc_file_call": (ctypes.c_uint32, None),
    "jdoc_file_reply": (ctypes.c_uint32, None),
    "jdoc_file_number": (ctypes.c_uint32, [POINTER]),
    "jdoc_file_line": (ctypes.c_uint64, [POINTER]),
    "jdoc_file_error": (ctypes.c_int, [POINTER]),
    "jdoc_file_text": (TEXT, [ctypes.c_uint32]),
}


# What closes a document that is dropped, as long as it isn't. These callbacks have no bytecode, so no signal handler can end one before it
# has closed the file; it could end one of `weakref.finalize`.
CLOSERS: Set[weakref.ref[Library]] = set()


class Library:
    """A document in this process, for one thread at a time. It does what the program does over a pipe.

    An exception from a signal handler may end any call: each function of the library is one step for Python, and leaves the document and
    its file as they are to be. A document that is dropped is closed.
    """

    def __init__(self, library: str, path: Optional[str], number: Optional[int]) -> None:
        name = None if path is None else os.fsencode(path)
        if name is not None and b"\0" in name:
            raise ValueError("embedded null byte")
        # With what it ended, and why; and how many requests it was asked.
        self._status = DONE
        self._end: Optional[str] = None
        self._turns = 0
        # The file, and where the library puts the length of a reply.
        self._file, self._length = POINTER(), SIZE()
        self._calls = _loaded(library)
        self._ask = partial(self._calls.jdoc_file_call, self._file)
        self._copy = self._copier(4096)
        self._places = ctypes.byref(POINTER()), ctypes.byref(self._length)
        # The functions set the pointer themselves, so whatever interrupts the opening, the file is closed.
        CLOSERS.difference_update([it for it in CLOSERS if it() is None])
        CLOSERS.add(weakref.ref(self, partial(self._calls.jdoc_file_close, ctypes.byref(self._file))))
        status = self._calls.jdoc_file_open(ctypes.byref(self._file), name, number or 0)
        if status != DONE:
            fault = self._fault(status, path)
            self.close()
            raise fault

    def _fault(self, status: int, path: Optional[str]) -> Died:
        """Why the file isn't open."""
        text = self._text(status)
        said = f"jdoc: {text}" if path is None else f"jdoc: {text}: {path}"
        if status == LOCKED:
            return Locked(said)
        if status == NOT_FOUND:
            return NotFound(said)
        if status == WRONG_NUMBER:
            return WrongNumber(f"{said} has {self._calls.jdoc_file_number(self._file)}")
        if status == DAMAGED:
            line = self._calls.jdoc_file_line(self._file)
            return Damaged(f"jdoc: line {line} of {path} doesn't fit", line, text)
        error = self._calls.jdoc_file_error(self._file)
        return Died(f"{said}: {os.strerror(error)}" if error else said)

    def _text(self, status: int) -> str:
        said: bytes = self._calls.jdoc_file_text(status)
        return said.decode()

    def ask(self, line: bytes) -> bytes:
        """The reply to a line; without one, what the program says first. What a reply calls made, received or saved is in the file."""
        if line:
            return self._call(line[:-1])
        _, number, length, _ = json.loads(self._call(b'["status"]'))
        return b'["ready",%d,%d]\n' % (number, length)

    def _call(self, line: bytes) -> bytes:
        self._turns = turn = self._turns + 1
        status: int = self._ask(line, SIZE(len(line)), *self._places)
        # A signal handler may use the document at any time, so the reply isn't read where the library has it.
        copy = self._copy
        while copy() == TOO_SHORT:
            self._copy = copy = self._copier(self._length.value)
        said: bytes = copy.args[1][: self._length.value]
        if status != DONE or self._status != DONE:
            return self._failed(status, said)
        if self._turns != turn:
            raise JdocError("a signal handler used the document during this call, whose reply is gone")
        return said

    def _copier(self, room: int) -> partial[int]:
        """What copies a reply of up to this many bytes to its second argument."""
        place = ctypes.create_string_buffer(room)
        return partial(self._calls.jdoc_file_reply, self._file, place, SIZE(room), ctypes.byref(self._length))

    def _failed(self, status: int, said: bytes) -> bytes:
        """What a program says where a call ended so."""
        if self._status == DONE and status in (LOST, GONE):
            self._status = status
            # Whoever opens the file again needs the lock.
            self.close()
        if self._status == LOST:
            return b'["lost"]\n'
        if self._status == GONE:
            raise Gone(self._text(GONE))
        if status == UNSAVED and said:
            return said
        raise Died(self._end or f"jdoc: {self._text(status)}")

    def end(self, why: str) -> str:
        """Closes the document for this reason, and returns it."""
        self._end = f"jdoc {why}"
        self.close()
        return self._end

    def close(self) -> None:
        """Closes the document, and saves what isn't saved if it can."""
        self._calls.jdoc_file_close(ctypes.byref(self._file), None)


def _loaded(library: str) -> ctypes.CDLL:
    try:
        calls = ctypes.CDLL(library)
        for name, (result, words) in FUNCTIONS.items():
            function = getattr(calls, name)
            function.restype = result
            if words is not None:
                function.argtypes = words
    except (OSError, AttributeError) as fault:
        raise NoProgram(f"jdoc: {fault}") from fault
    return calls
