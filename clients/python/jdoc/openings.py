"""Why a file isn't opened: what the program's last words mean, and who has the file."""
from __future__ import annotations

import os
import re
from contextlib import suppress
from typing import List, Optional

from .errors import Damaged, Died, Locked, NotFound, WrongNumber

# The status with which the program ends then, and its last words (docs/FORMATS.md, 'One document over lines'); a name may have any
# character.
BAD_INPUT = 2
HELD = re.compile(r"^jdoc: another program has (.+)\Z", re.MULTILINE | re.DOTALL)
OTHER_NUMBER = re.compile(r"^jdoc: number (\d+) has .+\Z", re.MULTILINE | re.DOTALL)
BAD_LINE = re.compile(r"^jdoc: line (\d+) of .+ doesn't fit(?:: (.+))?\Z", re.MULTILINE | re.DOTALL)
NOT_OPENED = re.compile(r"^jdoc: cannot open (.+)\Z", re.MULTILINE | re.DOTALL)
# A lock of a whole file: the process that took it, the numbers of the device, and that of the file.
LOCK = re.compile(r"^\d+: FLOCK +\w+ +\w+ +(\d+) ([0-9a-f]+):([0-9a-f]+):(\d+) ")


def fault_of(text: str, said: str, status: int) -> Died:
    """The exception for a program that ended with this status after it had said this. The text is the message."""
    if status == BAD_INPUT:
        if it := HELD.search(said):
            return locked(text, it[1])
        if it := OTHER_NUMBER.search(said):
            return WrongNumber(text, int(it[1]))
        if it := BAD_LINE.search(said):
            return Damaged(text, int(it[1]), it[2])
        if it := NOT_OPENED.search(said):
            return _not_opened(text, it[1])
    return Died(text)


def locked(text: str, path: str) -> Locked:
    """The exception for a file that is locked, with this message and what can be found out of who has it."""
    holder = _holder(path)
    if holder is None:
        return Locked(text)
    line = [holder, *_parent(holder)]
    if os.getpid() in line:
        return Locked(f"{text}: this process has it open, in another document", holder)
    who = ", started by ".join(f"process {it}{_command(it)}" for it in line)
    return Locked(f"{text}: {who}", holder)


def _not_opened(text: str, path: str) -> Died:
    """Why a file can't be opened, by trying it again without making it."""
    try:
        os.close(os.open(path, os.O_RDWR | os.O_CLOEXEC | os.O_NONBLOCK))
    except FileNotFoundError:
        if os.path.isdir(folder := os.path.dirname(path)):
            return Died(f"{text}: it can't be made in its folder")
        return NotFound(f"{text}: there is no folder {folder}")
    except OSError as fault:
        return Died(f"{text}: {fault.strerror}")
    return Died(text)


def _holder(path: str) -> Optional[int]:
    """The process that has locked the file. Only Linux has a list of locks."""
    with suppress(OSError):
        file = os.stat(path)
        with open("/proc/locks", encoding="ascii") as locks:
            for it in filter(None, map(LOCK.match, locks)):
                if (os.makedev(int(it[2], 16), int(it[3], 16)), int(it[4])) == (file.st_dev, file.st_ino):
                    return int(it[1])
    return None


def _parent(process: int) -> List[int]:
    """The process that started this one, if it still runs."""
    with suppress(OSError):
        with open(f"/proc/{process}/stat", encoding="utf-8", errors="replace") as file:
            # Its name stands in brackets, and may have some too.
            parent = int(file.read().rpartition(")")[2].split()[1])
            return [parent] if parent > 1 else []
    return []


def _command(process: int) -> str:
    """The words that started a process, in brackets, if they can be read."""
    with suppress(OSError):
        with open(f"/proc/{process}/cmdline", encoding="utf-8", errors="replace") as file:
            words = file.read().rstrip("\0").replace("\0", " ")
            return f" ({words[:100]})" if words else ""
    return ""
