#!/usr/bin/env python3
"""Tests that the names that pages cite exist: in README.md, docs/*.md and the READMEs of crates, clients and examples

- laws and functions as `file::function` or `crate::function`, methods and fields as `Type::name`, definitions as `Module.word` or
  `crate.Module.word`;
- clauses as `function.clause`, and files and folders by their paths from the top;
- every other name of one word, which must be a word of some source, script or edit, or one of `ELSEWHERE`;
- in docs/RULES.md the tests, each with its crate;
- in docs/GUARANTEES.md all columns of its tables of claims: functions with the clauses behind them, laws, and tests and wrong edits, each
  with a crate that has it. A cell with nothing of its kind has a dash.

CHANGELOG.md isn't read: it names things that no longer exist. Says how many names are missing, and fails if any is.
"""
import functools
import re
import sys
from pathlib import Path

TOP = Path(__file__).resolve().parent.parent
READMES = [it for part in ("crates", "clients", "examples") for it in sorted(TOP.glob(f"{part}/*/README.md"))]
PAGES = [TOP / "README.md", *sorted(TOP.glob("docs/*.md")), *READMES]
CLAIMS = ["Claim", "Contract", "Law", "Tests", "Wrong edits"]
NAMES_WITH_CRATES = re.compile(r"((?:`\w+`(?:, )?)+) \(((?:`\w+`(?:, )?)+)\)")
# The head of a function, with its contract.
HEAD = re.compile(r'^( *)(?:pub(?:\(\w+\))? )?(?:const )?(?:extern "C" )?fn (\w+)(.*?)^\1(?:\{|\}|[^\n]*;$)', re.MULTILINE | re.DOTALL)
# What looks like a definition or a clause but isn't one.
FILE_ENDINGS = {"md", "antt", "rt", "py", "txt", "sh", "session", "serve", "bad", "c", "h"}
# Crates whose tests are in tests/scripts too, where a group is named by a line `# NAME: TEXT`.
PLAYED = {"calls", "cli", "scripts", "serving", "world"}
# Names that aren't words of this repository, by page: of the toolchain, of the system, and of what doesn't exist or no longer exists.
ELSEWHERE = {
    "DECISIONS": {"IsAllowed", "Vec::insert", "arrayvec::ArrayString", "dyn"},
    "GUARANTEES": {"NAME_tests", "of_NAME"},
    "EMBEDDING": {"HANDLES", "a.parts", "engines.run_engine", "received.stopped", "sleep", "spawn", "std::thread::Parker"},
    "NEXT": {"Closed", "flat_map", "set_as"},
    "PERF": {"malloc_consolidate"},
    "PROVING": {
        "Cmp.decided", "Cmp.on_equiv", "Crate.words", "FiltersInPlace", "Lts", "Vec::get", "Vec::insert", "Vec::retain", "as_chunks_mut",
        "c.from_residual", "callgrind", "l.x", "memmove", "offers", "op.id", "reduce_max", "with_items",
    },
}


@functools.cache
def text_of(*patterns):
    """The texts of all files of these patterns below the top, joined."""
    files = sorted(it for pattern in patterns for it in TOP.glob(pattern) if it.is_file())
    return "\n".join(it.read_text(encoding="utf-8") for it in files)


@functools.cache
def code_files():
    """The text of each file of code."""
    return [it.read_text(encoding="utf-8") for part in ("crates/*/src/**/*.rt", "clients/rust/src/*.rs") for it in sorted(TOP.glob(part))]


@functools.cache
def clauses():
    """For each function's name the names of the clauses of all contracts under it."""
    found = {}
    for text in code_files():
        for it in HEAD.finditer(text):
            found.setdefault(it[2], set()).update(re.findall(r"\b(?:ensures|requires) (\w+) \{", it[3]))
    return found


@functools.cache
def words():
    """Each word of a source, script or edit, and the name of each."""
    parts = [f"crates/*/{part}/**/*.*" for part in ("src", "specs", "proofs", "must-fail", "wrong")]
    patterns = [*parts, "clients/**/*.py", "examples/**/*.py", "tests/*", "tests/scripts/*", "tests/c/*.c", "include/*"]
    patterns += ["tools/*", "bench/*", ".ci/*", "jdoc", "crates.txt"]
    names = {it.stem for pattern in [*parts, "crates/*", "tests/scripts/*"] for it in TOP.glob(pattern)}
    found = set(re.findall(r"[\w-]+", text_of(*patterns)))
    return names.union(found, *(it.split("-") for it in found))


def has_function(text, name):
    return re.search(rf"\bfn {name}\b", text) is not None


@functools.cache
def files_with(owner):
    """The text of each file that has a type or trait of this name, or an impl of it."""
    return [it for it in code_files() if re.search(rf"\b(impl|struct|enum|trait)\b[^\n]*\b{owner}\b", it)]


def is_method(owner, name):
    """Whether some type or trait of this name has a function or a field of that name in the same file."""
    return any(has_function(it, name) or re.search(rf"\b{name}:", it) for it in files_with(owner))


def faults_of(name):
    """Yields why the name doesn't exist. A name of another form isn't one of ours."""
    if it := re.fullmatch(r"([a-z_]+)::([a-z_0-9]+)", name):
        if not has_function(text_of(f"crates/semantics/src/{it[1]}.rt", f"crates/{it[1]}/src/**/*.rt"), it[2]):
            yield "no such law or function"
    elif it := re.fullmatch(r"([A-Z]\w+)::([a-z_0-9]+)", name):
        if not is_method(it[1], it[2]):
            yield "no such method or field"
    elif (it := re.fullmatch(r"(?:([a-z_]+)\.)?([A-Z]\w+)\.([A-Za-z_-]+)", name)) and it[3] not in FILE_ENDINGS:
        crate = it[1] or "semantics"
        module = text_of(f"crates/{crate}/specs/{it[2]}.antt", f"crates/{crate}/proofs/{it[2]}.antt")
        if not re.search(rf"(?<![\w-]){re.escape(it[3])}(?![\w-])", module):
            yield "no such definition"
    elif (it := re.fullmatch(r"([a-z_0-9]+)\.([a-z_0-9]+)", name)) and it[2] not in FILE_ENDINGS and it[1] != "crates":
        if it[2] not in clauses().get(it[1], ()):
            yield "no such clause"
    elif re.fullmatch(r"(crates|docs|tests|examples|clients|tools|bench|include)/[a-z0-9_./]+(\.\w+)?", name) and not (TOP / name).exists():
        yield "no such file"
    elif re.fullmatch(r"[A-Za-z_]\w*(::\w+)*", name) and not words().issuperset(name.split("::")):
        yield "no such word"


def claims_in(text):
    """Yields the cells of each row of a table of claims."""
    for table in re.findall(r"(?:^\|.*\|\n)+", text, re.MULTILINE):
        head, _, *rows = ([it.strip() for it in line.strip("|").split(" | ")] for line in table.splitlines())
        if [it.strip("| ") for it in head] == CLAIMS:
            yield from ([it.strip("| ") for it in row] for row in rows)


def missing_clauses(contracts):
    """Yields the clauses listed after a function that its contract doesn't have. A part that names no function belongs to the one before
    it."""
    named = set()
    for part in contracts.split(";"):
        names = {it.split("::")[-1] for it in re.findall(r"`((?:\w+::)?[a-z_0-9]+)`", part)}
        named = names & clauses().keys() or named
        for name in names - clauses().keys():
            if not any(name in clauses()[it] for it in named) and not (TOP / "crates" / name).is_dir():
                yield name, f"no such clause of {', '.join(sorted(named))}"


def files_of(crate):
    """The files of a crate and of its tests, whether these are a crate of their own or in another crate of tests; and those that the
    program plays, for the crates that these test."""
    parts = f"*_tests/src/tests/of_{crate}"
    patterns = [f"{crate}/src/**/*.rt", f"{crate}_tests/src/**/*.rt", f"{parts}.rt", f"{parts}/**/*.rt"]
    played = sorted(TOP.glob("tests/scripts/*")) if crate in PLAYED else []
    return [it for pattern in patterns for it in sorted((TOP / "crates").glob(pattern))] + played


def missing_of(text, kind, has):
    """Yields each name of a text that is followed by crates one of which doesn't have it."""
    for names, crates in NAMES_WITH_CRATES.findall(text):
        for crate in re.findall(r"`(\w+)`", crates):
            for name in re.findall(r"`(\w+)`", names):
                if not has(crate, name):
                    yield f"{name} ({crate})", f"no such {kind}"


def has_test(crate, name):
    """Whether the crate or its tests have a test, a file of tests, or a group of such a file, of this name."""
    files = files_of(crate)
    is_there = re.compile(rf"\bfn {name}\b|^# {name}: ", re.MULTILINE)
    return name in {it.stem for it in files} or any(is_there.search(it.read_text(encoding="utf-8")) for it in files)


def has_edit(crate, name):
    return any((TOP / "crates" / crate / folder / f"{name}.edit").is_file() for folder in ("must-fail", "wrong"))


def faults_in_claims(text):
    """Yields what is missing in the tables of claims, column by column."""
    for claim, contracts, laws, tests, edits in claims_in(text):
        yield from missing_clauses(contracts)
        yield from missing_of(tests, "test", has_test)
        yield from missing_of(edits, "wrong edit", has_edit)
        for cell, pattern in ((laws, re.compile(r"`[a-z_]+::[a-z_0-9]+`")), (tests, NAMES_WITH_CRATES), (edits, NAMES_WITH_CRATES)):
            if cell != "-" and (rest := re.search(r"`[^`]*`", pattern.sub("", cell))):
                yield rest[0].strip("`"), f"not as its column names such ({claim[:40]})"
            if cell != "-" and not pattern.search(cell):
                yield cell, f"names nothing, and is no dash ({claim[:40]})"


def faults_in(page, text, names):
    """Yields each name of a page that doesn't exist, and why."""
    for name in sorted(names - ELSEWHERE.get(page, set())):
        yield from ((name, why) for why in faults_of(name))
    if page == "GUARANTEES":
        yield from faults_in_claims(text)
    if page == "RULES":
        yield from missing_of("\n".join(re.findall(r" Tests: (.*)", text)), "test", has_test)


def main():
    cited, faults = 0, 0
    for path in PAGES:
        text = path.read_text(encoding="utf-8")
        names = set(re.findall(r"`([^`\n]+)`", re.sub(r"^```.*?^```", "", text, flags=re.MULTILINE | re.DOTALL)))
        cited += len(names)
        for name, why in faults_in(path.stem, text, names):
            faults += 1
            print(f"names: FAILED: {path.relative_to(TOP)}: {name}: {why}")
    print(f"names: {cited} names in pages, {faults} that aren't there")
    sys.exit(1 if faults else 0)


if __name__ == "__main__":
    main()
