#!/usr/bin/env python3
"""tools/gate_times.py FILE COMMAND..: runs the command, writes to the file what each crate cost, and ends with the command's status.

The file gets a table of minutes for each crate: of a processor, user and system, for its proof, its tests' proof and its wrong edits,
and of the clock, from when the first of these began to when the last one ended. Each check on the machine is looked at once a second,
so what one takes in its last second is lost.
"""
import collections
import os
import pathlib
import subprocess
import sys
import threading
import time

TICKS = os.sysconf("SC_CLK_TCK")
KINDS = ("proof", "tests", "edits")


class Check:
    """A check that runs, or has ended: what it checks, its processor seconds, and when it was first and last seen."""

    def __init__(self, crate, kind, now):
        self.crate, self.kind, self.seconds, self.first, self.last = crate, kind, 0.0, now, now


def words_of(pid):
    """The words of a running command, or none."""
    try:
        return pathlib.Path(f"/proc/{pid}/cmdline").read_text(errors="replace").split("\0")
    except OSError:
        return []


def kind_of(pid, words):
    """What a check checks: that of wrong edits runs in a folder of its own."""
    try:
        folder = os.readlink(f"/proc/{pid}/cwd")
    except OSError:
        folder = ""
    if "rt-edit" in folder or "wrong-edits" in folder:
        return "edits"
    return "tests" if "--test" in words else "proof"


def seconds_of(pid):
    """The processor seconds, user and system, that a process has taken."""
    try:
        fields = pathlib.Path(f"/proc/{pid}/stat").read_text().rpartition(")")[2].split()
    except OSError:
        return None
    return sum(int(it) for it in fields[11:13]) / TICKS


def look(checks, now):
    """Looks once at all checks that run."""
    for pid in filter(str.isdigit, os.listdir("/proc")):
        if pid not in checks:
            words = words_of(pid)
            if words[1:2] not in (["check"], ["build"]) or "--crate-name" not in words:
                continue
            crate = words[words.index("--crate-name") + 1]
            checks[pid] = Check(crate, kind_of(pid, words), now)
        seconds = seconds_of(pid)
        if seconds is not None and seconds >= checks[pid].seconds:
            checks[pid].seconds, checks[pid].last = seconds, now


def table(checks, whole):
    """The table's lines, in Markdown: crates in the order in which their first checks began."""
    rows, spans = collections.defaultdict(lambda: dict.fromkeys(KINDS, 0.0)), {}
    for check in checks.values():
        rows[check.crate][check.kind] += check.seconds / 60
        first, last = spans.get(check.crate, (check.first, check.last))
        spans[check.crate] = min(first, check.first), max(last, check.last)
    yield "| Crate | Proof | Tests | Wrong edits | All | From, to |"
    yield "|---|---|---|---|---|---|"
    for crate in sorted(rows, key=lambda it: spans[it]):
        minutes, (first, last) = rows[crate], spans[crate]
        cells = [f"{minutes[kind]:.1f}" if minutes[kind] else "-" for kind in KINDS]
        yield f"| `{crate}` | {' | '.join(cells)} | {sum(minutes.values()):.1f} | {first / 60:.0f}, {last / 60:.0f} |"
    sums = [sum(row[kind] for row in rows.values()) for kind in KINDS]
    cells = " | ".join(f"{it:.1f}" for it in sums)
    yield f"| all | {cells} | {sum(sums):.1f} | 0, {whole / 60:.0f} |"


def main():
    if not sys.argv[2:]:
        sys.exit(__doc__)
    checks, start, ended = {}, time.monotonic(), threading.Event()

    def watch():
        while not ended.wait(1):
            look(checks, time.monotonic() - start)

    watcher = threading.Thread(target=watch)
    watcher.start()
    status = subprocess.call(sys.argv[2:])
    ended.set()
    watcher.join()
    lines = table(checks, time.monotonic() - start)
    pathlib.Path(sys.argv[1]).write_text("".join(f"{line}\n" for line in lines), encoding="utf-8")
    sys.exit(status)


main()
