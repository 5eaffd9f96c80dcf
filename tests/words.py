#!/usr/bin/env python3
"""Tests that no page, no comment and no line of a client has a phrase of tests/words.txt. Prints a line for each place, with what to
write instead, and fails if there is any.
"""
import re
import sys
from pathlib import Path

TOP = Path(__file__).resolve().parent.parent
COMMENTS = {".rt": "//", ".antt": "-- "}


def phrases():
    """Yields each pattern, and what to write instead."""
    for line in (TOP / "tests/words.txt").read_text(encoding="utf-8").splitlines():
        if line and line[0] != "#":
            phrase, _, instead = line.partition(": ")
            yield re.compile(rf"\b{phrase}\b", re.IGNORECASE), instead


def texts():
    """Yields each line of a page or a client, and each comment, with its file and number."""
    pages = [*TOP.glob("*.md"), *TOP.glob("docs/*.md"), *TOP.glob("crates/*/README.md")]
    pages += [it for part in ("clients", "examples") for end in ("md", "py") for it in TOP.glob(f"{part}/**/*.{end}")]
    sources = [it for part in ("src", "specs", "proofs") for it in TOP.glob(f"crates/*/{part}/**/*.*")]
    for path in sorted([*pages, *sources]):
        mark = COMMENTS.get(path.suffix)
        for number, line in enumerate(path.read_text(encoding="utf-8").splitlines(), 1):
            before, found, comment = line.partition(mark) if mark else ("", True, line)
            if found:
                yield path.relative_to(TOP), number, comment


def main():
    banned, seen, faults = list(phrases()), 0, 0
    for path, number, text in texts():
        seen += 1
        for phrase, instead in banned:
            if not (it := phrase.search(text)):
                continue
            faults += 1
            print(f"words: FAILED: {path}:{number}: '{it[0]}'; say: {instead}")
    print(f"words: {len(banned)} phrases, {seen} lines, {faults} faults")
    sys.exit(1 if faults else 0)


if __name__ == "__main__":
    main()
