#!/usr/bin/env python3
"""crates.py [--write]: tests that the table of crates in docs/ARCHITECTURE.md has for each the first paragraph of its lib.rt or
main.rt, in the order of crates.txt; with --write, writes that table."""
import re
import sys
from pathlib import Path

TOP = Path(__file__).resolve().parent.parent
PAGE = TOP / "docs/ARCHITECTURE.md"
TABLE = re.compile(r"^\| Crate \| What it is \|\n(?:\|.*\n)*", re.MULTILINE)


def first_paragraph(crate):
    """The head of the crate's root file, up to its first empty line."""
    root = next(it for end in ("lib", "main") if (it := TOP / f"crates/{crate}/src/{end}.rt").is_file())
    said = []
    for line in root.read_text(encoding="utf-8").splitlines():
        if not line.startswith("//! "):
            break
        said.append(line.removeprefix("//! "))
    return " ".join(said)


def rows():
    """Yields the lines of the table. The crates of tests, whose heads all say the same, share the last one."""
    yield "| Crate | What it is |"
    yield "|---|---|"
    crates = [it.split(":")[0].split()[0] for it in (TOP / "crates.txt").read_text(encoding="utf-8").splitlines() if it]
    tests = [it for it in crates if it.endswith("_tests")]
    for crate in crates:
        if crate not in tests:
            yield f"| `{crate}` | {first_paragraph(crate)} |"
    yield f"| {', '.join(f'`{it}`' for it in tests)} | The tests of these crates, through their public functions. |"


def main():
    table = "".join(f"{it}\n" for it in rows())
    text = PAGE.read_text(encoding="utf-8")
    wanted = TABLE.sub(lambda _: table, text, count=1)
    if "--write" in sys.argv[1:]:
        PAGE.write_text(wanted, encoding="utf-8")
    is_right = table in (wanted if "--write" in sys.argv[1:] else text)
    print(f"crates: {table.count(chr(10)) - 2} rows in docs/ARCHITECTURE.md" if is_right else "crates: FAILED: say tests/crates.py --write")
    sys.exit(0 if is_right else 1)


if __name__ == "__main__":
    main()
