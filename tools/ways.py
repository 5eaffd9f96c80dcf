#!/usr/bin/env python3
"""Prints how many functions, files and crates the three ways of docs/ARCHITECTURE.md go through: those that the functions at the
beginning of a way may call, by names, as tests/unused.py reads them. So a number is too large rather than too small, and is useful only
compared with an earlier one."""
import sys
from pathlib import Path

TOP = Path(__file__).resolve().parent.parent
sys.path.insert(0, str(TOP / "tests"))
import unused  # noqa: E402

WAYS = {
    "a command, from submit to poll and ask": ["engine Client::submit", "engine Client::poll", "engine Client::ask", "engine Writer::step"],
    "a peer's line, from receive to the history": ["peer_sync receive", "engine Writer::step"],
    "a bad line of a script, to its message": ["scripts read_script", "cli Fault::report"],
}


def functions_with_files(crates):
    """Each function of these crates, with its file."""
    files = {}
    for crate in crates:
        source = TOP / "crates" / crate / "src"
        for path in sorted(source.glob("**/*.rt")):
            if "tests" not in path.relative_to(source).parts and path.name != "tests.rt":
                lines = [it.split("//")[0].rstrip() for it in path.read_text(encoding="utf-8").splitlines()]
                files.update((function, path) for function in unused.functions_in(crate, lines))
    return files


def main():
    below = unused.crates_below()
    crates = sorted(set().union(*(below[it] for it in unused.PROGRAMS)) & set(below))
    files, types, named = functions_with_files(crates), unused.declared_types(crates), {}
    for function in files:
        named.setdefault(function.name, []).append(function)
    for way, starts in WAYS.items():
        roots = [it for it in files if it.title() in starts]
        on_way = {it for it in unused.reach(roots, below, named, types) if not it.is_law}
        paths, rooms = {files[it] for it in on_way}, {it.crate for it in on_way}
        print(f"{way}: {len(on_way)} functions in {len(paths)} files of {len(rooms)} crates")


if __name__ == "__main__":
    main()
