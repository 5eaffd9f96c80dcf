#!/usr/bin/env python3
"""Tests that the code in README.md and docs/EMBEDDING.md is code that the gate builds: the line before a block of Rattle, Rust or C, or
before one that begins with `py`, names the file that it is from, and that file has the block's lines in the same order. Spaces at both ends
of a line, comments, and what `{ .. }` leaves out aren't compared. Blocks that begin with `python` are whole programs, which the tests of
clients/python run; tests/readme.sh runs the box of README.md that starts Python."""
import re
import sys
from pathlib import Path

TOP = Path(__file__).resolve().parent.parent
BLOCK = re.compile(r"^(?P<before>[^\n]*)\n(?:\n)?^```(?P<language>rust|c|py|python)\n(?P<code>.*?)^```$", re.MULTILINE | re.DOTALL)
FILE = re.compile(r"((?:crates|clients|examples)/[\w./]+\.(?:rt|rs|c|py))")
COMMENT = re.compile(r"\s*(//|/\*|#).*$")


def lines_of(code):
    """The lines of code, without what isn't compared."""
    lines = (COMMENT.sub("", it).replace("{ .. }", "{").strip() for it in code.splitlines())
    return [it for it in lines if it]


def first_missing(wanted, there):
    """The first of the wanted lines that doesn't come after the one before it."""
    rest = iter(there)
    return next((it for it in wanted if it not in rest), None)


def faults_of(page):
    """Yields what is wrong with a block; blocks that Python's tests run are skipped."""
    text = (TOP / page).read_text(encoding="utf-8")
    for block in BLOCK.finditer(text):
        files = FILE.findall(block["before"])
        number = text.count("\n", 0, block.start("code"))
        if not files:
            if block["language"] != "python":
                yield f"{page}:{number}: no file is named"
        elif not (path := TOP / files[-1]).is_file():
            yield f"{page}:{number}: no file {files[-1]}"
        elif line := first_missing(lines_of(block["code"]), lines_of(path.read_text(encoding="utf-8"))):
            yield f"{page}:{number}: not so in {files[-1]}: {line}"


def main():
    faults = [it for page in ("README.md", "docs/EMBEDDING.md") for it in faults_of(page)]
    for fault in faults:
        print(f"snippets: FAILED: {fault}")
    print(f"snippets: {len(faults)} that no file has")
    sys.exit(1 if faults else 0)


if __name__ == "__main__":
    main()
