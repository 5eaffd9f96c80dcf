#!/usr/bin/env python3
"""build.py [library]: proves the crates that the program, or the library for C, stands on, and builds it. `./jdoc build` calls this.

What it proves the gate needn't prove again, and the other way round (tools/proved.py): where the gate has passed, it takes some minutes.
"""
import os
import shutil
import subprocess
import sys
import tempfile
import time
from pathlib import Path

from proved import TOP, copy_to, crates_below, prove

# For each word of the command line: the crate, and what is built of it.
GOALS = {"": ("jdoc", "jdoc"), "library": ("jdoc_c", "libjdoc_c.a")}


def say(text: str) -> None:
    print(f"./jdoc: {text}", file=sys.stderr, flush=True)


def weight_of(name: str) -> int:
    """How much there is to prove: the bytes of code, definitions and proofs."""
    return sum(it.stat().st_size for part in ("src", "specs", "proofs") for it in (TOP / "crates" / name / part).rglob("*.*"))


class Progress:
    """What was proved so far, and how long it took."""

    def __init__(self, names: list[str]) -> None:
        self.left = {name: weight_of(name) for name in names}
        self.done, self.start = 0, time.monotonic()

    def minutes(self) -> float:
        return (time.monotonic() - self.start) / 60

    def has_proved(self, name: str) -> None:
        """Says so, and how long the rest takes, as if a crate took time in proportion to its size."""
        self.done += self.left.pop(name, 0)
        if self.left and self.done:
            rest = round(self.minutes() * sum(self.left.values()) / self.done)
            say(f"{name} is proved: {len(self.left)} to go, about {rest} min ({self.minutes():.0f} so far)")


def archived(room: Path, crate: str) -> bool:
    """Whether the library for C is proved and built in this copy, of which everything below it is proved. `rt ci` would prove the library
    too, but make no archive; so this calls what `rt lib` calls, which would prove everything below once more."""
    page = subprocess.run(["rt", "doc"], stdout=subprocess.PIPE, text=True, check=True).stdout
    sys.path.insert(0, str(Path(page.strip()).parent / "bin"))
    sys.dont_write_bytecode = True
    import rtlib  # pylint: disable=import-error,import-outside-toplevel

    folder = room / "crates" / crate
    (folder / "out").mkdir()
    os.chdir(folder)
    with tempfile.TemporaryFile("w+") as said:
        made = rtlib.Crate(str(folder), str(room), {})
        made.out = said
        is_built: bool = made.build_static([]) == 0
        said.seek(0)
        if not is_built:
            print(said.read(), end="", file=sys.stderr)
    os.chdir(TOP)
    return is_built


def built(room: Path, word: str) -> bool:
    """Whether what the word stands for is built in this copy."""
    goal = GOALS[word][0]
    crates = crates_below([goal])
    say(f"proving {len(crates)} crates; from nothing, at most three quarters of an hour on four processors")
    proved = {name: line for name, line in crates.items() if not (word and name == goal)}
    copy_to(room, proved)
    if not prove(room, Progress(list(crates)).has_proved):
        return False
    if not word:
        return True
    copy_to(room, crates)
    return archived(room, goal)


def main(word: str) -> int:
    goal, made = GOALS[word]
    start = time.monotonic()
    with tempfile.TemporaryDirectory(prefix="jdoc-build-") as folder:
        if not built(Path(folder), word):
            say(f"{goal} isn't built: not all that it stands on is proved")
            return 1
        target = TOP / "crates" / goal / "out" / made
        target.parent.mkdir(exist_ok=True)
        # Made beside it and renamed, so that nobody runs half of it.
        shutil.copy(Path(folder) / "crates" / goal / "out" / made, f"{target}.new")
        os.replace(f"{target}.new", target)
    say(f"{target.relative_to(TOP)} is proved and built after {(time.monotonic() - start) / 60:.0f} min")
    return 0


if __name__ == "__main__":
    sys.exit(main("".join(sys.argv[1:])))
