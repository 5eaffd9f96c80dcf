"""Crates that `rt ci` has proved, in a copy of their sources: for what is built of them, and for checks of other crates over them.

`rt ci` keeps on this machine what it has proved, for the gate too. So where the gate has passed, a copy takes half a minute, and the gate
needn't prove again what was proved for a copy. Of a checkout's own out/ nobody knows which sources it was made of.
"""
import functools
import re
import shutil
import subprocess
import sys
from collections.abc import Callable, Iterable
from pathlib import Path

TOP = Path(__file__).resolve().parent.parent
PARTS = ("src", "specs", "proofs", "stdin", "stdout", "args", "status", "data")


def lines_of_crates() -> dict[str, str]:
    """The line of each crate in crates.txt, in its order."""
    lines = [it.split("#")[0].rstrip() for it in (TOP / "crates.txt").read_text(encoding="utf-8").splitlines()]
    return {it.split(":")[0].split()[0]: it for it in lines if it}


def uses_of(line: str) -> list[str]:
    """The libraries that a crate names on its line."""
    return line.split(":")[1].split()


def crates_below(goals: Iterable[str]) -> dict[str, str]:
    """These crates and those that they use, directly or indirectly, each with its line, lowest first."""
    lines, needed = lines_of_crates(), set(goals)
    # A crate comes before those that use it.
    for name in reversed(lines):
        if name in needed:
            needed.update(uses_of(lines[name]))
    return {name: line for name, line in lines.items() if name in needed}


def below(crate: str) -> list[str]:
    """The repository's crates that this one uses, directly or indirectly, lowest first."""
    return [it for it in crates_below([crate]) if it != crate]


@functools.cache
def kit() -> Path:
    """The folder of the toolchain."""
    page = subprocess.run(["rt", "doc"], stdout=subprocess.PIPE, text=True, check=True).stdout
    return Path(page.strip()).parent


def copy_to(room: Path, crates: dict[str, str]) -> None:
    """Copies the sources of these crates, without their wrong edits, and lists them. What is there already stays as it is."""
    (room / "crates.txt").write_text("".join(f"{line}\n" for line in crates.values()), encoding="utf-8")
    shutil.copy(TOP / "HANDLES", room)
    for name in crates:
        target = room / "crates" / name
        if target.exists():
            continue
        target.mkdir(parents=True)
        for source in (TOP / "crates" / name / part for part in PARTS):
            if source.is_dir():
                shutil.copytree(source, target / source.name)
            elif source.exists():
                shutil.copy2(source, target)


def prove(room: Path, has_proved: Callable[[str], None] = lambda _name: None) -> bool:
    """Whether `rt ci` proves the crates of this copy. Calls the function with each crate that is proved, and shows the end of what was said
    if one isn't."""
    said = []
    with subprocess.Popen(["rt", "ci"], cwd=room, stdin=subprocess.DEVNULL, stdout=subprocess.PIPE, stderr=subprocess.STDOUT,
                          encoding="utf-8", errors="replace") as gate:
        assert gate.stdout
        for line in gate.stdout:
            said.append(line)
            if found := re.match(r"rt: (\w+) (?:proved$|is kept)", line):
                has_proved(found[1])
    if gate.returncode:
        # What failed, and not what was proved beside it.
        told = [it for it in said if not re.match(r"fn \S+: proved|(struct|enum|impl) |statements ", it)]
        print("".join(told[-20:]), end="", file=sys.stderr)
    return gate.returncode == 0


def rlib(room: Path, crate: str) -> Path:
    """The library that `rt ci` made of a crate of this copy."""
    return room / "crates" / crate / "out/rlib" / f"{crate}.rlib"


def words_of_check(room: Path, crate: str) -> list[str]:
    """The words of a check of a crate, in its folder, over the libraries of this copy."""
    line = lines_of_crates()[crate]
    is_program = (TOP / "crates" / crate / "src/main.rt").is_file()
    words = [str(kit() / "bin/rattle"), "check", "--crate-name", crate, "src/main.rt" if is_program else "src/lib.rt"]
    for name in ["std", *uses_of(line)]:
        words += ["--extern", f"{name}={rlib(room, name) if name in lines_of_crates() else kit() / 'rlibs' / f'{name}.rlib'}"]
    for folder in [kit() / "rlibs", *(rlib(room, it).parent for it in below(crate))]:
        words += ["-L", f"dependency={folder}"]
    words += ["--antt-project", str(kit() / "rattle/logic/antt-project.json"), "--logic-built", str(kit() / "logic_built")]
    if "staticlib" in line.split(":")[0].split():
        words += ["--crate-type", "staticlib"]
    return [*words, "--jobs", "1"]
