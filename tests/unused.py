#!/usr/bin/env python3
"""Tests that each public function of a library is reached by a program, or by the library for C, through code that isn't a test, or
is listed in tests/unused.txt with a reason: `CRATE NAME: REASON` or `CRATE Type::NAME: REASON`. What only a listed function reaches
counts as reached. Prints a line for each function that is neither, and for each needless line of the list, and fails if there is any.

Calls are found in the text, by names: `.name(` is a method of that name, of the type with which the name in front of it is declared in
the same crate, else of any type; `Type::name` is one of that type; `name(` or `path::name` is a function that belongs to no type; each
in the crate itself and in those below it. A method of a trait's impl counts as called. So this can't see that a function is never called
if another one of the same name is, nor that a call is never made. A function with an empty body is a law, which needs no caller.
"""
import re
import sys
from pathlib import Path

TOP = Path(__file__).resolve().parent.parent
LIST = TOP / "tests/unused.txt"
PROGRAMS = {"jdoc", "jdoc_c", "meeting", "shopping", "diary", "bench", "workloads", "measures"}
IMPL = re.compile(r"(?:pub )?(impl|trait)\b(?:<.*?>(?= ))? ?(?:.* for )?&?(?:'\w+ )?(\w+)")
FUNCTION = re.compile(r"( *)(pub(?:\([^)]*\))? )?(?:const )?fn (\w+)")
# A name that is called, or passed as an argument, and what it is called on.
USE = re.compile(r"(?:(\w*)(?:::<[^()]*>)?(::|\.))?\b([a-z_]\w*)\b(?=\(|::<|\)|,|;)")
# A field, a parameter or a local, with its type.
DECLARED = re.compile(r"\b([a-z_]\w*): ([^=;{}()]*?[,;)\n=])")


class Function:
    """A function: its crate, its type if it has one, and the lines of its body."""

    def __init__(self, crate, owner, is_of_trait, is_public, name):
        self.crate, self.owner, self.is_of_trait, self.is_public, self.name = crate, owner, is_of_trait, is_public, name
        self.is_law = False
        self.body = []

    def title(self):
        return f"{self.crate} {self.owner + '::' if self.owner else ''}{self.name}"


def crates_below():
    """For each crate of crates.txt, the crate itself and those that it uses, directly or indirectly."""
    below = {}
    for line in (TOP / "crates.txt").read_text(encoding="utf-8").splitlines():
        name, _, uses = line.replace(" staticlib", "").partition(":")
        below[name] = {name}.union(*(below.get(it, set()) for it in uses.split()))
    return below


def sources_of(crate):
    """Yields the lines of each of a crate's files outside its tests, without comments."""
    source = TOP / "crates" / crate / "src"
    for path in sorted(source.glob("**/*.rt")):
        if "tests" not in path.relative_to(source).parts and path.name != "tests.rt":
            yield [it.split("//")[0].rstrip() for it in path.read_text(encoding="utf-8").splitlines()]


def functions_in(crate, lines):
    """Yields each function of a file. Its contract isn't a part of its body."""
    owner = function = None
    is_of_trait = in_body = False
    for line in lines:
        if it := IMPL.match(line):
            owner, is_of_trait = it[2], it[1] == "trait" or " for " in line
        elif line == "}":
            owner, is_of_trait = None, False
        if (it := FUNCTION.match(line)) and len(it[1]) == (4 if owner else 0):
            function = Function(crate, owner, is_of_trait, it[2] == "pub ", it[3])
            indent, in_body = it[1], line.endswith("{")
            yield function
        elif function and line == indent + "}":
            function, in_body = None, False
        elif in_body:
            function.body.append(line)
        elif function:
            function.is_law = function.is_law or line == indent + "{}"
            in_body = line == indent + "{" or line.startswith(indent + ")") and line.endswith("{")


def declared_types(crates):
    """The types that fields, parameters and locals are declared with, by their crate and name."""
    types = {}
    for crate in crates:
        for lines in sources_of(crate):
            for name, kind in DECLARED.findall("\n".join(lines)):
                types.setdefault((crate, name), set()).update(re.findall(r"\b[A-Z]\w+", kind))
    return types


def reached_by(function, named, types):
    """Yields the functions that the names in a body may refer to."""
    for it in USE.finditer("\n".join(function.body)):
        before, joint, those = it[1], it[2], named.get(it[3], [])
        methods = [f for f in those if f.owner]
        if joint == "::" and before and before[0].isupper():
            owners = {function.owner if before == "Self" else before}
        elif joint == ".":
            owners = {function.owner} if before == "self" else types.get((function.crate, before), set())
        else:
            yield from (f for f in those if not f.owner)
            continue
        yield from [f for f in methods if f.owner in owners] or methods


def reach(roots, below, named, types):
    """The roots, and everything that they reach."""
    reached, todo = set(roots), list(roots)
    while todo:
        function = todo.pop()
        for it in reached_by(function, named, types):
            if it not in reached and it.crate in below[function.crate]:
                reached.add(it)
                todo.append(it)
    return reached


def main():
    below = crates_below()
    used = set().union(*(below[it] for it in PROGRAMS))
    crates = sorted(used & set(below))
    functions = [f for crate in crates for lines in sources_of(crate) for f in functions_in(crate, lines)]
    types, named = declared_types(crates), {}
    for it in functions:
        named.setdefault(it.name, []).append(it)
    listed = [line.partition(": ")[0] for line in LIST.read_text(encoding="utf-8").splitlines() if line and line[0] != "#"]
    roots = [f for f in functions if f.crate in PROGRAMS or f.is_of_trait]

    def reached_with(titles):
        chosen = set(titles)
        return {f.title() for f in reach(roots + [f for f in functions if f.title() in chosen], below, named, types)}

    public = {f.title() for f in functions if f.is_public and not f.is_law}
    reached = reached_with(listed)
    faults = [f"no program reaches {it}, and tests/unused.txt doesn't name it" for it in sorted(public - reached)]
    for it in listed:
        if it not in public or it in reached_with(other for other in listed if other != it):
            faults.append(f"tests/unused.txt names {it}, which is reached without that, or isn't there")
    for it in faults:
        print(f"unused: FAILED: {it}")
    print(f"unused: {len(public)} public functions, {len(listed)} listed, {len(faults)} faults")
    sys.exit(1 if faults else 0)


if __name__ == "__main__":
    main()
