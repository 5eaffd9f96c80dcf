#!/usr/bin/env python3
"""play.py PROGRAM: plays the files of its folder, and the scripts of examples, with a program, and compares what it says with what they
expect. Prints each difference and how many there are, and fails if there is any.

A file is made of groups, with an empty line between them. Each group is played in an empty folder of its own, so `FILE` is the name of a
file that its runs share. How a line begins says what it is:

    # TEXT          what a group or the lines below show; `# NAME: TEXT` also names that, and pages cite it by this name
    $ WORDS         the next run of the program has these words, quoted as in a shell; without such a line a group's run is `run`
    > LINE          a line of input

In a .session file, which has scripts, and a .serve file, which has talks with `jdoc serve`, what comes of a run stands beside its input:

    < LINE          a line of standard output, below the input to which it replies: the first line of a script has no reply, and a
                    document that is served says one line before any request
    ! LINE          a line of standard error; `! ..` as the last stands for one or more lines
    = N             the status, if it isn't 0
    ^ LINE          a line that FILE is given before the run
    | LINE          a line that FILE has after the run
    ~ LINE          cut after each of its bytes, the same input has the same replies to whole lines, and this one to a line that is cut

In a .bad file each row is refused:

    % PART ..       each `%` in the rows below stands for each of these in turn
    CODE LINE       a row: behind the group's input this line is bad, the run says so by its number and this code, and prints nothing; if
                    the words are those of `serve`, it is a request, and this code the reply
    + LINE          a line behind the row's

In a line {TEXT*N} stands for N times TEXT, {XX ..} for the bytes with these hexadecimal digits, and {cut} at its end for no line feed.
"""
import re
import shlex
import subprocess
import sys
import tempfile
from collections.abc import Iterator
from dataclasses import dataclass, field
from difflib import unified_diff
from itertools import takewhile, zip_longest
from pathlib import Path
from typing import Optional

HERE = Path(__file__).resolve().parent
EXAMPLES = HERE.parent.parent / "examples"
# The status of a run that is refused.
BAD_INPUT = 2
# What stands for a text that is repeated, or for bytes.
BRACES = re.compile(r"\{(?:([^{}]+)\*([0-9]+)|([0-9a-f]{2}(?: [0-9a-f]{2})*))\}")
# So many characters of a line are shown.
SHOWN = 200


class Malformed(Exception):
    """A line of a file has no form."""


@dataclass(frozen=True)
class Line:
    """A line of a file: how it begins, what is behind that, and where it stands."""

    mark: str
    text: str
    place: str


@dataclass
class Said:
    """What comes of a run. It may be anything where there is None."""

    output: bytes = b""
    errors: bytes = b""
    status: int = 0
    kept: Optional[bytes] = None


@dataclass
class Run:
    """A run of the program: its words, where it stands, its input and what is expected of it."""

    words: list[str]
    place: str
    input: bytes = b""
    expected: Said = field(default_factory=Said)
    # Whether standard error goes on behind what is expected.
    has_more_errors: bool = False
    # What the file has before the run, if that isn't what the run before left.
    given: Optional[bytes] = None
    # The reply to a line that is cut.
    if_cut: Optional[bytes] = None

    def is_as_expected(self, said: Said) -> bool:
        """Whether that is what is expected."""
        if self.has_more_errors and said.errors.startswith(self.expected.errors) and said.errors.endswith(b"\n"):
            said = Said(said.output, self.expected.errors, said.status, said.kept)
        return said == self.expected

    def transcript(self, said: Said) -> list[str]:
        """What is said in the form of a session."""
        requests, replies = texts_of("> ", self.input), texts_of("< ", said.output)
        ahead, behind = ([], [""]) if self.words[:1] == ["run"] else ([""], [])
        pairs = zip_longest(ahead + requests, behind + replies, fillvalue="")
        lines = ["$ " + shlex.join(self.words), *(it for pair in pairs for it in pair if it)]
        return lines + texts_of("! ", said.errors) + [f"= {said.status}"] + texts_of("| ", said.kept or b"")


def texts_of(mark: str, text: bytes) -> list[str]:
    """The lines of a text, as far as they are shown, each with the mark in front."""
    return [mark + it.decode(errors="backslashreplace")[:SHOWN] for it in text.splitlines()]


def bytes_of(text: str) -> bytes:
    """A line with its line feed, unless it is cut."""
    whole = text.removesuffix("{cut}")
    line, end = b"", 0
    for it in BRACES.finditer(whole):
        line += whole[end : it.start()].encode()
        line += bytes.fromhex(it[3]) if it[3] else it[1].encode() * int(it[2])
        end = it.end()
    return line + whole[end:].encode() + (b"\n" if whole == text else b"")


def groups_of(path: Path) -> Iterator[list[Line]]:
    """The lines of each group of a file, without comments."""
    group: list[Line] = []
    for number, line in enumerate([*path.read_text(encoding="utf-8").split("\n"), ""], 1):
        mark, _, text = line.partition(" ")
        if mark not in ("", "#"):
            group.append(Line(mark, text, f"{path.name}:{number}"))
        elif not line and group:
            yield group
            group = []


def talks_of(group: list[Line]) -> Iterator[Run]:
    """The runs of a group of a session or a talk."""
    runs: list[Run] = []
    for line in group:
        if line.mark == "$":
            runs.append(Run(shlex.split(line.text), line.place))
        else:
            runs = runs or [Run(["run"], line.place)]
            add_line(runs[-1], line)
    for run in runs:
        yield run
        yield from cuts_of(run)


def add_line(run: Run, line: Line) -> None:
    """Adds a line of a session or a talk to its run."""
    said, text = run.expected, bytes_of(line.text)
    if line.mark == ">":
        run.input += text
    elif line.mark == "<":
        before = 2 if run.words[:1] == ["run"] else 0
        if said.output.count(b"\n") + before != run.input.count(b"\n"):
            raise Malformed(f"{line.place}: a reply stands elsewhere than below its line")
        said.output += text
    elif line.mark == "!" and line.text == "..":
        run.has_more_errors = True
    elif line.mark == "!":
        said.errors += text
    elif line.mark == "=":
        said.status = int(line.text)
    elif line.mark == "^":
        run.given = (run.given or b"") + text
    elif line.mark == "|":
        said.kept = (said.kept or b"") + text
    elif line.mark == "~":
        run.if_cut = text
    else:
        raise Malformed(f"{line.place}: no line begins with '{line.mark}' here")


def cuts_of(run: Run) -> Iterator[Run]:
    """The runs whose input ends after each byte of this one's, if it says what comes of a line that is cut."""
    replies = run.expected.output.splitlines(keepends=True)
    for end in range(len(run.input)) if run.if_cut is not None else ():
        whole, _, rest = run.input[:end].rpartition(b"\n")
        count = run.input.count(b"\n", 0, end) + 1
        output = b"".join(replies[:count]) + (run.if_cut or b"" if rest else b"")
        yield Run(run.words, f"{run.place}, cut after {end} bytes", run.input[:end], Said(output))


def rows_of(group: list[Line]) -> Iterator[tuple[str, list[Line]]]:
    """Each row of a group of bad lines, as its code and its lines."""
    parts: list[str] = []
    for at, line in enumerate(group):
        if line.mark == "%":
            parts = line.text.split()
        elif re.fullmatch("E[0-9]+", line.mark):
            behind = list(takewhile(lambda it: it.mark == "+", group[at + 1 :]))
            for part in parts if "%" in line.text else [""]:
                yield line.mark, [Line(line.mark, line.text.replace("%", part), line.place), *behind]
        elif line.mark not in ("$", ">", "+"):
            raise Malformed(f"{line.place}: no line begins with '{line.mark}' here")


def refusals_of(group: list[Line]) -> Iterator[Run]:
    """The runs of a group of bad lines: one of a script for each row, or one that serves all rows."""
    words = next((shlex.split(it.text) for it in group if it.mark == "$"), ["run"])
    start = b"".join(bytes_of(it.text) for it in group if it.mark == ">")
    rows = [(code, b"".join(bytes_of(it.text) for it in lines), lines[0].place) for code, lines in rows_of(group)]
    if words[:1] == ["serve"]:
        number = words[words.index("--number") + 1]
        output = f'["ready",{number},0]\n' + "".join(f'["refused","{code}"]\n' for code, _, _ in rows)
        yield Run(words, group[0].place, b"".join(text for _, text, _ in rows), Said(output.encode()))
        return
    number = start.count(b"\n") + 1
    for code, text, place in rows:
        yield Run(words, place, start + text, Said(errors=f"jdoc: line {number}: {code}\n".encode(), status=BAD_INPUT))


def examples() -> Iterator[list[Run]]:
    """The runs of the scripts of examples, with their replies."""
    for script in sorted(EXAMPLES.glob("*.jsonl")):
        expected = Said(script.with_suffix(".replies").read_bytes())
        yield [Run(["run", str(script)], script.name, expected=expected)]


def all_runs() -> Iterator[list[Run]]:
    """The runs of each group of each file."""
    for path in sorted(HERE.iterdir()):
        if path.suffix in (".session", ".serve"):
            yield from (list(talks_of(it)) for it in groups_of(path))
        elif path.suffix == ".bad":
            yield from (list(refusals_of(it)) for it in groups_of(path))
    yield from examples()


def played(program: Path, run: Run, folder: Path) -> Said:
    """What comes of a run in a folder."""
    file = folder / "FILE"
    if run.given is not None:
        file.write_bytes(run.given)
    done = subprocess.run([program, *run.words], input=run.input, cwd=folder, capture_output=True, timeout=100, check=False)
    kept = None if run.expected.kept is None else file.read_bytes() if file.exists() else b""
    return Said(done.stdout, done.stderr, done.returncode, kept)


def main() -> None:
    program = Path(sys.argv[1]).resolve()
    count, failed = 0, 0
    for group in all_runs():
        with tempfile.TemporaryDirectory() as folder:
            for run in group:
                count += 1
                said = played(program, run, Path(folder))
                if run.is_as_expected(said):
                    continue
                failed += 1
                print(f"sessions: FAILED: {run.place}")
                expected = run.transcript(run.expected)
                print("\n".join(unified_diff(expected, run.transcript(said), "expected", "said", lineterm="")))
    print(f"sessions: {count} played, {failed} failed")
    sys.exit(1 if failed else 0)


if __name__ == "__main__":
    main()
