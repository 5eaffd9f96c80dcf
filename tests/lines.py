#!/usr/bin/env python3
"""Tests that no line of code, of a definition, of a proof or of Python has more than 140 columns, outside raw strings.
Prints a line for each that is too long, and fails if there is any.
"""
import re
import sys
from pathlib import Path

TOP = Path(__file__).resolve().parent.parent
WIDTH = 140
RAW = re.compile(r'\bb?r(#*)"')


def lines_outside_raw_strings(text):
    """Yields each line that holds no part of a raw string, with its number."""
    end = None
    for number, line in enumerate(text.splitlines(), 1):
        rest, is_raw = line, end is not None
        while True:
            if end is not None:
                _, found, rest = rest.partition(end)
                if not found:
                    break
                end = None
            if not (it := RAW.search(rest.split("//")[0])):
                break
            is_raw, end, rest = True, '"' + it[1], rest[it.end():]
        if not is_raw:
            yield number, line


def main():
    seen, faults = 0, 0
    crates = [f"crates/*/{part}/**/*.*" for part in ("src", "specs", "proofs")]
    pythons = [f"{part}/**/*.py" for part in ("clients", "examples", "tests", "tools")]
    for path in sorted(it for part in crates + pythons for it in TOP.glob(part)):
        seen += 1
        for number, line in lines_outside_raw_strings(path.read_text(encoding="utf-8")):
            if len(line) <= WIDTH:
                continue
            faults += 1
            print(f"lines: FAILED: {path.relative_to(TOP)}:{number}: {len(line)} columns")
    print(f"lines: {seen} files, {faults} faults")
    sys.exit(1 if faults else 0)


if __name__ == "__main__":
    main()
