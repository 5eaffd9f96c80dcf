#!/usr/bin/env python3
"""Tests that each public definition of a crate's specs has a comment directly above it, which says what it means. For lemmas on equality
the comment of their file will do. Says how many definitions have none, and fails if there are any.
"""
import pathlib
import re
import sys

TOP = pathlib.Path(__file__).resolve().parent.parent
# `abbrev pub f : ..`, `pub record R ..` and the like; within a `module` they are indented, as the fields of a record are.
DEFINITION = re.compile(r"( *)((abbrev|unfoldable) )*pub (?!mod |use |open )(record |data )?\S+ ")
LEMMA = re.compile(r": (\(.*\) → )?(Decides|IsEquivalence) ")


def is_field(before, indent):
    """Whether the line of this indent is in the record that the lines before it begin."""
    outer = (it for it in reversed(before) if it.strip() and len(it) - len(it.lstrip()) < indent)
    return indent > 0 and not next(outer).lstrip().startswith("module ")


def definitions(lines):
    """Yields the index of each public definition."""
    for at, line in enumerate(lines):
        if (it := DEFINITION.match(line)) and not is_field(lines[:at], len(it[1])):
            yield at


def has_comment(lines, at):
    """Whether the line above is a comment, and not the heading of a section."""
    return at > 0 and lines[at - 1].lstrip().startswith("-- ") and not lines[at - 1].lstrip().startswith("-- ----")


def main():
    found, bare = 0, []
    for path in sorted(TOP.glob("crates/*/specs/*.antt")):
        lines = path.read_text(encoding="utf-8").splitlines()
        for at in definitions(lines):
            found += 1
            if not has_comment(lines, at) and not LEMMA.search(lines[at]):
                bare.append(f"{path.relative_to(TOP)}:{at + 1}: {lines[at].strip()}")
    for it in bare:
        print(f"definitions: FAILED: no comment above {it}")
    print(f"definitions: {found} definitions, {len(bare)} without a comment")
    sys.exit(1 if bare else 0)


if __name__ == "__main__":
    main()
