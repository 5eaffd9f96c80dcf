#!/usr/bin/env python3
"""wrong_edits.py [CRATE | CRATE/EDIT ..]: tries the wrong edits in crates/CRATE/wrong, which the prover must refuse, many in one check.

Goes over the libraries below, as `rt ci` proves them in a copy, in half a minute where it has passed. For each crate:

1. Each edit names, by where its texts are, the functions whose bodies it changes. A round is one check, from nothing, of the functions that
   its edits change and of what these call; it has at most one edit for a function.
2. An edit is refused if one of its functions has a goal of its own that is not proved: that it calls a function which isn't proved shows
   nothing, nor does an error that says that a name is gone.
3. A function that no edit changes must have no such goal: else the edits disturb one another, and the run fails.
4. An edit of a definition or a constant names by lines `only: FUNCTION` what has to fail, one of these at least, and is a round by itself.
5. What a round didn't settle is tried alone, in a check of the whole crate, as `rt ci` tries the edits of crates/CRATE/must-fail. What is
   then still proved, can't be read, or is refused for a name alone, fails the run.

What a round came to is kept on this machine, under a sum of all that its check read, and is taken from there when the same is tried again.
With RT_JOBS=N, N checks run side by side. `--from FOLDER` takes the edits of FOLDER/CRATE in place of those of crates/CRATE/wrong.
"""
from __future__ import annotations

import argparse
import functools
import hashlib
import json
import os
import re
import shutil
import subprocess
import sys
import tempfile
from concurrent.futures import ThreadPoolExecutor
from dataclasses import dataclass, field
from pathlib import Path

from proved import TOP, below, copy_to, crates_below, kit, lines_of_crates, prove, rlib, words_of_check

PARTS = ("src", "specs", "proofs")
# Where results are kept: a folder of the user's alone, since a later run believes what stands there.
KEPT = Path(os.environ.get("XDG_CACHE_HOME") or Path.home() / ".cache") / "jdoc-wrong-edits"
# A check that takes longer is ended. The longest takes some fifteen minutes on a slow machine.
MAX_SECONDS = 3600

FUNCTION = re.compile(r"( {4})?(?:pub(?:\([^)]*\))? )?(?:const |unsafe |extern \"C\" )*fn (\w+)")
IMPL = re.compile(r"(?:unsafe )?impl(?:<.*?>)? ([^{]*)")
TRAIT = re.compile(r"(?:pub )?trait (\w+)")
# What a check says of a function, of a goal of its code, and of a file of its proof.
SAID_OF_FUNCTION = re.compile(r"fn (\S+): (.*)")
OPEN_GOAL = re.compile(r"(?:no proof|not proved).*`search` did not prove")
REFUSED_LEMMA = re.compile(r"not proved; it stands on (`[^`]+`)")
ERROR = re.compile(r"(?:\./)?(src|specs|proofs)/(\S+?):(\d+):\d+: error\b(.*)")
# An error that comes of a name which the edit took away, and says nothing of a contract.
NAME_IS_GONE = re.compile(r"has no field|is not in scope|has no `|was not admitted|no goal is named")


# A file's path, its text, and a place in it.
Place = tuple[str, str, int]


class BadEdit(Exception):
    """An edit that can't be applied, or whose function can't be found."""


@dataclass
class Edit:
    """A wrong edit: texts of a crate's files and what is to stand in their place."""

    crate: str
    name: str
    pairs: list[tuple[str, str, str]]
    only: list[str]

    @classmethod
    def read(cls, crate: str, file: Path) -> Edit:
        edit, path, old = cls(crate, file.stem, [], []), "", ""
        for line in file.read_text(encoding="utf-8").splitlines():
            key, _, value = line.partition(": ")
            if key == "file":
                path = value.strip()
            elif key == "only":
                edit.only.append(value.strip())
            elif key == "old":
                old = value
            elif key == "new":
                edit.pairs.append((path, old, value))
        return edit

    def __str__(self) -> str:
        return f"{self.crate}/{self.name}"

    def applied(self, texts: Texts) -> tuple[Texts, list[Place]]:
        """The texts with this edit, and where it changed them. Raises BadEdit."""
        texts, places = texts.copy(), []
        for path, old, new in self.pairs:
            text = texts.read(path)
            if text.count(old) != 1:
                raise BadEdit(f"not exactly once in {path}: {old}")
            places.append((path, text, text.index(old)))
            texts.changed[path] = text.replace(old, new)
        return texts, places

    def changes(self, folder: Path, places: list[Place]) -> set[str]:
        """The functions of the crate in this folder that change with these places, one of which has to fail. Raises BadEdit."""
        return set(self.only) or {function_at(folder, *it) for it in places}


@dataclass
class Texts:
    """The files of a crate, some of them changed."""

    folder: Path
    changed: dict[str, str] = field(default_factory=dict)

    def read(self, path: str) -> str:
        if path not in self.changed:
            try:
                return (self.folder / path).read_text(encoding="utf-8")
            except OSError as error:
                raise BadEdit(f"{path} can't be read") from error
        return self.changed[path]

    def copy(self) -> Texts:
        return Texts(self.folder, dict(self.changed))

    def write_to(self, room: Path) -> None:
        for part in PARTS:
            if (self.folder / part).is_dir():
                shutil.copytree(self.folder / part, room / part)
        for path, text in self.changed.items():
            (room / path).write_text(text, encoding="utf-8")


def modules_of(path: str) -> list[str]:
    """The module of a file of src/, by its path below the crate."""
    return [it for it in Path(path).with_suffix("").parts[1:] if it not in ("lib", "main", "mod")]


def function_at(folder: Path, path: str, text: str, at: int) -> str:
    """The function whose body has this place, as checks print it without the crate. Goes by the indents that `rt fmt` gives. Raises
    BadEdit."""
    lines, here = text.split("\n"), text.count("\n", 0, at)
    for number in range(here, -1, -1):
        found = FUNCTION.match(lines[number])
        if not found:
            continue
        indent = found[1] or ""
        begun = any(re.match(rf"{indent}\S.*\{{$|{indent}\{{$", it) for it in lines[number : here + 1])
        if not begun or indent + "}" in lines[number:here] or not path.startswith("src/"):
            break
        owner = owner_of(folder, path, lines[:number]) if indent else modules_of(path)
        return "::".join([*owner, found[2]])
    raise BadEdit(f"no body of a function is changed in {path}: name what has to fail by a line 'only: FUNCTION'")


def owner_of(folder: Path, path: str, lines: list[str]) -> list[str]:
    """The type or trait of the method that comes next, with its module: `Vector`, `VectorClone`, `RefusalFromAllocError`."""
    for line in reversed(lines):
        if found := TRAIT.match(line):
            return [*modules_of(path), found[1]]
        if found := IMPL.match(line):
            head = found[1].split(" where ")[0]
            of, _, owner = head.partition(" for ")
            words = re.findall(r"\w+", re.sub(r"'\w+|\w+::", "", of))
            if owner:
                return [*modules_of(path), re.findall(r"\w+", re.sub(r"<.*", "", owner))[-1] + "".join(words)]
            return [*module_of_type(folder, words[0], path), words[0]]
    raise BadEdit("a method that stands in no impl")


@functools.cache
def module_of_type(folder: Path, name: str, path: str) -> list[str]:
    """The module of a type, whose methods may stand in another file than the type itself."""
    head = re.compile(rf"(?m)^(?:pub(?:\([^)]*\))? )?(?:struct|enum) {name}\b")
    if head.search((folder / path).read_text(encoding="utf-8")):
        return modules_of(path)
    found = [it for it in sorted((folder / "src").rglob("*.rt")) if head.search(it.read_text(encoding="utf-8"))]
    return modules_of(str(found[0].relative_to(folder))) if found else modules_of(path)


@functools.cache
def kit_sum() -> str:
    """What tells one toolchain from another: its name, and the compiler's size and time."""
    version = subprocess.run(["rt", "version"], stdout=subprocess.PIPE, text=True, check=True).stdout
    found = (kit() / "bin/rattle").stat()
    return f"{version} {found.st_size} {found.st_mtime_ns}"


@dataclass(frozen=True)
class Crate:
    """A crate, and the copy in which what is below it is proved."""

    name: str
    room: Path

    @property
    def texts(self) -> Texts:
        return Texts(TOP / "crates" / self.name)

    def check(self, texts: Texts, words: list[str]) -> tuple[int, str]:
        """The status of a check of these texts with these words, and what it says."""
        with tempfile.TemporaryDirectory(prefix=f"wrong-edits-{self.name}-") as folder:
            texts.write_to(Path(folder))
            try:
                ran = subprocess.run([*words_of_check(self.room, self.name), *words], cwd=folder, stdin=subprocess.DEVNULL,
                                     stdout=subprocess.PIPE, stderr=subprocess.STDOUT, encoding="utf-8", errors="replace",
                                     timeout=MAX_SECONDS, check=False)
            except subprocess.TimeoutExpired:
                return -1, f"it took more than {MAX_SECONDS} seconds"
        return ran.returncode, ran.stdout

    @functools.cached_property
    def sum(self) -> str:
        """A sum of all that a check of the crate reads: these tools, the toolchain, the crate's files, and the libraries below as built."""
        made = hashlib.sha256()
        tools = [Path(__file__).with_name(it).read_text(encoding="utf-8") for it in ("wrong_edits.py", "proved.py")]
        for part in [kit_sum(), lines_of_crates()[self.name], *tools]:
            made.update(part.encode() + b"\0")
        own = [(TOP, self.texts.folder / part) for part in PARTS]
        for top, folder in [*own, *((self.room, rlib(self.room, it)) for it in below(self.name))]:
            for file in sorted(it for it in folder.rglob("*") if it.is_file()):
                made.update(f"{file.relative_to(top)}\0".encode() + hashlib.sha256(file.read_bytes()).digest())
        return made.hexdigest()

    def kept(self, key: str) -> Path:
        """Where what a try came to is kept."""
        return KEPT / f"{self.name}-{hashlib.sha256(f'{self.sum} {key}'.encode()).hexdigest()}.json"


@dataclass
class Verdict:
    """What a try came to: the edits that were refused, each with why, and what is wrong."""

    refused: dict[str, str] = field(default_factory=dict)
    faults: list[str] = field(default_factory=list)

    def __add__(self, other: Verdict) -> Verdict:
        return Verdict(self.refused | other.refused, self.faults + other.faults)


def keep(file: Path, verdict: Verdict) -> None:
    KEPT.mkdir(mode=0o700, parents=True, exist_ok=True)
    with tempfile.NamedTemporaryFile("w", dir=KEPT, delete=False, encoding="utf-8") as made:
        json.dump(vars(verdict), made)
    os.replace(made.name, file)


def taken(file: Path) -> Verdict | None:
    """What an earlier run kept in this file, if it is this user's own."""
    try:
        if file.stat().st_uid != os.geteuid():
            return None
        return Verdict(**json.loads(file.read_text(encoding="utf-8")))
    except (OSError, ValueError, TypeError):
        return None


@dataclass
class Round:
    """Edits that one check tries, and the functions that each of them changes; or one edit by itself, and what has to fail by it."""

    crate: Crate
    texts: Texts
    edits: list[Edit] = field(default_factory=list)
    functions: list[set[str]] = field(default_factory=list)

    def takes(self, edit: Edit) -> bool:
        """Adds the edit, unless one of its functions is changed already, a text of it is gone, or one of both wants to be by itself."""
        try:
            texts, places = edit.applied(self.texts)
            functions = edit.changes(self.texts.folder, places)
        except BadEdit:
            return False
        if any(it.only or edit.only for it in self.edits) or any(functions & it for it in self.functions):
            return False
        self.texts = texts
        self.edits.append(edit)
        self.functions.append(functions)
        return True

    def tried(self) -> Verdict:
        """What one check of these functions says of each edit. Where it comes to no end, what checks of the halves say."""
        file = self.crate.kept(json.dumps([[it.name for it in self.edits], sorted(self.texts.changed.items())]))
        if found := taken(file):
            return found
        # With the crate's name, since a module may have it too.
        only = [it for name in sorted(set().union(*self.functions)) for it in ("--only", f"{self.crate.name}::{name}")]
        status, said = self.crate.check(self.texts, ["--allow-holes", *only])
        if status == 1 and re.search(r"(?m)^only=\d+ holes=", said):
            verdict = self.judged(said)
            keep(file, verdict)
            return verdict
        middle = len(self.edits) // 2
        halves = [self.edits[:middle], self.edits[middle:]] if middle else []
        return sum((it.tried() for half in halves for it in rounds_of(self.crate, half)), Verdict())

    def judged(self, said: str) -> Verdict:
        """What the lines of the check say of each edit."""
        verdict = Verdict()
        failing = failing_functions(self.crate.name, said, bool(self.edits[0].only))
        for function, why in failing.items():
            owners = [edit for edit, changed in zip(self.edits, self.functions) if any(is_of(function, it) for it in changed)]
            for edit in owners:
                verdict.refused.setdefault(edit.name, why)
            if not owners and not self.edits[0].only:
                verdict.faults.append(f"{function}, which no edit changes, fails beside {', '.join(map(str, self.edits))}: {why}")
        return verdict


def is_of(found: str, function: str) -> bool:
    """Whether what a check names so is this function, or a closure in it."""
    plain = found.replace("::fn::", "::").partition("+")[0]
    return plain == function or plain.startswith(f"{function}::")


def failing_functions(crate: str, said: str, by_lemmas: bool) -> dict[str, str]:
    """The functions with a goal of their own that isn't proved, by their paths below the crate, each with the first such goal. With
    `by_lemmas`, which is for definitions, also those that stand on a lemma that isn't proved."""
    failing: dict[str, str] = {}
    for line in said.splitlines():
        if found := SAID_OF_FUNCTION.match(line):
            function = found[1].removeprefix(f"{crate}::")
            if OPEN_GOAL.match(found[2]):
                failing.setdefault(function, found[2].partition("`search` ")[2][:160])
            elif by_lemmas and (lemma := REFUSED_LEMMA.match(found[2])):
                failing.setdefault(function, f"{lemma[1]} isn't proved")
        elif (found := ERROR.match(line)) and not NAME_IS_GONE.search(line):
            where, file = found[1], Path(found[2])
            if where == "proofs" and file.stem in ("Answers", "Invariants", "Proof"):
                # The folder of a function that calls itself begins with a plus sign.
                function = "::".join(it.removeprefix("+") for it in file.parent.parts)
                failing.setdefault(function, found[4].lstrip(": ")[:160])
    return failing


def alone(edit: Edit, crate: Crate) -> Verdict:
    """A check of the whole crate with this edit and no other."""
    file = crate.kept(json.dumps([edit.name, edit.pairs]))
    if found := taken(file):
        return found
    try:
        changed, places = edit.applied(crate.texts)
        edit.changes(changed.folder, places)
    except BadEdit as error:
        return Verdict(faults=[f"BAD EDIT: {edit}: {error}"])
    status, said = crate.check(changed, [])
    verdict = judged_alone(edit, status, said)
    if status in (0, 1):
        keep(file, verdict)
    return verdict


def judged_alone(edit: Edit, status: int, said: str) -> Verdict:
    """What the check of a whole crate says of the one edit in it."""
    lines = said.splitlines()
    told = [it for it in lines if re.match(r"(?:note: )?\S+:\d+:\d+:", it) and (": error" in it or it.startswith("note: "))]
    meant = next((it for it in told if not NAME_IS_GONE.search(it)), None)
    if status == 0:
        return Verdict(faults=[f"NOT REFUSED: {edit}: the crate is still proved with this edit"])
    if status != 1 or not re.search(r"(?m)^logic=not-proved", said):
        return Verdict(faults=[f"BAD EDIT: {edit}: {(told or lines or ['it was ended'])[0][:300]}"])
    if meant is None:
        return Verdict(faults=[f"REFUSED FOR A NAME: {edit}: change a value, and keep the names that proofs cite: {told[0][:300]}"])
    return Verdict(refused={edit.name: meant[:160]})


def rounds_of(crate: Crate, edits: list[Edit]) -> list[Round]:
    """As few rounds as a first fit gives. An edit that names no function is in none of them."""
    rounds: list[Round] = []
    for edit in edits:
        if not any(it.takes(edit) for it in rounds):
            made = Round(crate, crate.texts)
            if made.takes(edit):
                rounds.append(made)
    return rounds


def chosen(words: list[str], folder: Path | None) -> dict[str, list[Edit]]:
    """The edits that these words name, by their crates; all of them for no words."""
    found: dict[str, list[Edit]] = {}
    for crate in lines_of_crates():
        place = folder / crate if folder else TOP / "crates" / crate / "wrong"
        edits = [Edit.read(crate, it) for it in sorted(place.glob("*.edit"))]
        edits = [it for it in edits if not words or crate in words or str(it) in words]
        if edits:
            found[crate] = edits
    unknown = [it for it in words if it not in found and it not in map(str, (e for es in found.values() for e in es))]
    if unknown:
        sys.exit(f"wrong_edits: there is no crate with wrong edits, and no such edit: {' '.join(unknown)}")
    return found


def weight(crate: Crate) -> int:
    return sum(it.stat().st_size for part in PARTS for it in (crate.texts.folder / part).rglob("*.*"))


def main() -> int:
    reader = argparse.ArgumentParser(description=__doc__, formatter_class=argparse.RawDescriptionHelpFormatter)
    reader.add_argument("names", nargs="*", metavar="CRATE | CRATE/EDIT")
    reader.add_argument("--from", dest="folder", type=Path)
    given = reader.parse_args()
    edits = chosen(given.names, given.folder)
    with tempfile.TemporaryDirectory(prefix="wrong-edits-proved-") as room:
        needed = crates_below({it for name in edits for it in below(name)})
        copy_to(Path(room), needed)
        if needed and not prove(Path(room)):
            sys.exit("wrong_edits: FAILED: what is below isn't proved")
        with ThreadPoolExecutor(int(os.environ.get("RT_JOBS") or os.cpu_count() or 1)) as pool:
            refused, faults = tried({Crate(it, Path(room)): edits[it] for it in edits}, pool)
    for fault in faults:
        print(f"wrong_edits: FAILED: {fault}")
    print(f"wrong_edits: {refused} refused, {len(faults)} failed")
    return 1 if faults else 0


def tried(crates: dict[Crate, list[Edit]], pool: ThreadPoolExecutor) -> tuple[int, list[str]]:
    """How many edits were refused, and what is wrong: first all rounds, the largest crates first, and then what they didn't settle."""
    plans = {crate: rounds_of(crate, crates[crate]) for crate in sorted(crates, key=weight, reverse=True)}
    verdicts = {crate: [pool.submit(it.tried) for it in rounds] for crate, rounds in plans.items()}
    refused: dict[str, str] = {}
    faults = []
    for crate, jobs in verdicts.items():
        for verdict in (it.result() for it in jobs):
            refused |= {f"{crate.name}/{name}": why for name, why in verdict.refused.items()}
            faults += verdict.faults
        print(f"wrong_edits: {crate.name}: {len(jobs)} rounds have ended", flush=True)
    left = [(edit, crate) for crate, edits in crates.items() for edit in edits if str(edit) not in refused]
    for edit, job in [(edit, pool.submit(alone, edit, crate)) for edit, crate in left]:
        verdict = job.result()
        refused |= {str(edit): why for why in verdict.refused.values()}
        faults += verdict.faults
    for name in sorted(refused):
        print(f"wrong_edits: {name}: refused: {refused[name]}")
    return len(refused), faults


if __name__ == "__main__":
    sys.exit(main())
