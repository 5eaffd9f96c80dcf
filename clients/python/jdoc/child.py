"""The program as a child process: one line to it, one line back."""
from __future__ import annotations

import os
import subprocess
import tempfile
import weakref
from contextlib import suppress
from typing import IO, List, Optional, Sequence, Tuple

from .errors import Died, NoProgram
from .openings import fault_of

# How many seconds a program may take to end once its input has ended.
PATIENCE = 30.0
# How much of a reply is read first, and then at once: most are short, and a pipe holds no more.
SHORT = 4096
PIECE = 65536


class Request:
    """A request under way: how many bytes of it each call sent, and the bytes of its reply as they came."""

    __slots__ = ("line", "sent", "reply")

    def __init__(self, line: bytes) -> None:
        self.line = line
        self.sent: List[int] = []
        self.reply: List[bytes] = []

    @property
    def is_sent(self) -> bool:
        """Whether the program may have something of it. Nothing is sent to be told that the program is ready."""
        return bool(self.sent) or not self.line


class Child:
    """A running program, for one thread at a time. It ends with `close`, with the last reference to this, or with the interpreter.

    An exception from a signal handler may end any call at any point; the next `ask` then goes on from there. A process that was forked
    from this one holds none of the pipes, so the program ends when this process closes them or ends.
    """

    def __init__(self, words: Sequence[str]) -> None:
        self._name = words[0]
        # Why it ended, once it has.
        self._end: Optional[str] = None
        # What is under way. It is kept if an exception ends the call, and its reply is read before another request is sent.
        self._request: Optional[Request] = None
        # Unlike a pipe, a file never fills up, so it needn't be read while the program runs.
        self._said: IO[bytes] = tempfile.TemporaryFile(buffering=0)
        try:
            # In a session of its own, so that Ctrl-C in a terminal goes to the application only. When that ends, the input ends too.
            # No buffers: what one holds would be unknown after an interrupt, and a forked process would have it a second time.
            self._process = subprocess.Popen(
                words, bufsize=0, stdin=subprocess.PIPE, stdout=subprocess.PIPE, stderr=self._said, start_new_session=True
            )
        except OSError as fault:
            self._said.close()
            raise NoProgram(f"can't start {self._name}: {fault}") from fault
        assert self._process.stdin and self._process.stdout
        self._input, self._output = self._process.stdin, self._process.stdout
        self._finalizer = weakref.finalize(self, _stop, self._process, self._said)
        RUNNING.add(self)

    def ask(self, line: bytes) -> bytes:
        """Sends the line to the program, and returns the next line from it. Raises `Died` if none comes, and from then on always. An
        interrupted request of which nothing was sent is forgotten; the reply to any other is read here first, and dropped."""
        if self._end is not None:
            raise Died(self._end)
        if self._request is not None and self._request.is_sent:
            self._finish(self._request)
        self._request = request = Request(line)
        reply = self._finish(request)
        self._request = None
        return reply

    def _finish(self, request: Request) -> bytes:
        """Sends what is left of the request, and returns the reply. It may be called again, wherever it was interrupted."""
        line, sent, parts = request.line, request.sent, request.reply
        try:
            # Python runs signal handlers between two bytecodes, and there is none between what `map` calls and what `extend` appends: if
            # an exception comes, either nothing was written or read, or it has been noted.
            while (done := sum(sent)) < len(line):
                sent.extend(map(self._input.write, (line[done:],)))
            while not parts or (parts[-1] and b"\n" not in parts[-1]):
                parts.extend(map(self._output.read, (PIECE if parts else SHORT,)))
        # Another `OSError` is none of the program's: a handler may raise `TimeoutError`.
        except BrokenPipeError:
            raise self._found_dead() from None
        if not parts[-1]:
            raise self._found_dead()
        reply = b"".join(parts)
        if reply.find(b"\n") + 1 < len(reply):
            raise Died(self.end(f"said {reply[:200]!r}, which is more than a line"))
        return reply

    def end(self, why: str) -> str:
        """Stops the program for this reason, and returns what there is to say: the reason, and what the program said."""
        self._process.kill()
        return self._ended_so(why)[0]

    def _found_dead(self) -> Died:
        """Why a program ended by itself."""
        # In case that an exception comes while it ends.
        self._end = f"{self._name} ended"
        status = _ended(self._process)
        return fault_of(*self._ended_so(f"ended with status {status}" if status >= 0 else f"ended by signal {-status}"), status)

    def _ended_so(self, how: str) -> Tuple[str, str]:
        """Ends it, and returns what there is to say of that, and what the program said."""
        self._end = f"{self._name} {how}"
        _ended(self._process)
        self._said.seek(0)
        said = self._said.read()[-10_000:].decode(errors="replace").strip()
        if said:
            self._end = f"{self._name} {how}: {said}"
        self.close()
        return self._end, said

    def close(self) -> None:
        """Makes the program end, and waits for that."""
        _stop(self._process, self._said)
        self._finalizer.detach()

    def forget(self) -> None:
        """In a process that was forked: closes its copies of the pipes, and leaves the program to the process that started it."""
        self._finalizer.detach()
        for file in (self._input, self._output, self._said):
            file.close()
        # The program isn't this process's child, so it isn't to be waited for.
        self._process.returncode = 0


# The programs that this process has started and may still use.
RUNNING: weakref.WeakSet[Child] = weakref.WeakSet()


def _forget_all() -> None:
    for child in list(RUNNING):
        child.forget()
    RUNNING.clear()


os.register_at_fork(after_in_child=_forget_all)


def _stop(process: subprocess.Popen[bytes], said: IO[bytes]) -> None:
    _ended(process)
    said.close()


def _ended(process: subprocess.Popen[bytes]) -> int:
    """The status of a program, which is made to end."""
    for pipe in (process.stdin, process.stdout):
        if pipe:
            # A reply that was due is of no use any more, and the program mustn't wait for somebody to read it.
            with suppress(OSError):
                pipe.close()
    try:
        return process.wait(PATIENCE)
    except subprocess.TimeoutExpired:
        process.kill()
        return process.wait()
