#!/usr/bin/env python3
"""Breaks lines of more than 140 columns in contracts, definitions and proofs: `tools/long_lines.py FILE..`, then `rt fmt` in the
crate's folder, which lays out what follows each break. `tools/long_lines.py --count` counts the lines that are left, by crate.

A break comes before an operator or an argument with as few brackets around it as possible, after the `in` of a `let`, or after a `;`.
Lists of imports are split in two, comments of definitions are refilled, and raw strings are left alone."""
import glob
import re
import sys

WIDTH = 140
OPERATORS = ["→", "↔", "⊎", "×", "||", "&&", "∙", "≡", "++"]
# The first in this list are broken first.
ORDER = ["in", *OPERATORS[:-1], ";", "++", "argument", "head"]


def places(line, start):
    """Where a break may come: the index, how many brackets are open there, and what follows."""
    found, depth, in_text = [], 0, False
    for at, char in enumerate(line):
        if char == '"':
            in_text = not in_text
        if in_text:
            continue
        if at > start and line[at - 1] == " ":
            rest = line[at:]
            operator = next((it for it in OPERATORS if rest.startswith(it + " ")), None)
            if operator:
                found.append((at, depth, operator))
            elif line[max(0, at - 4):at] == " in ":
                found.append((at, depth, "in"))
            elif line[at - 2] == ";":
                found.append((at, depth, ";"))
            elif char == "(":
                before = line[:at - 1].split(" ")[-1]
                is_head = before[:1] == "(" or before[-1:] == "." or before in ("=", "↦", ":", "λ", "in", *OPERATORS)
                found.append((at, depth, "head" if is_head else "argument"))
        depth += (char in "({[") - (char in ")}]")
    return found


def best(line, start):
    """The last place of the outermost and first kind that leaves a line of at most 140 columns before it."""
    found = places(line, start)
    found = [it for it in found if it[2] != "head"] or found
    if not found:
        return None
    outermost = min(it[1] for it in found)
    found = [it for it in found if it[1] == outermost]
    arguments = [it for it in found if it[2] == "argument"]
    if re.match(r"\s*(pub )?(module|record) ", line) and arguments:
        found = arguments
    else:
        kind = min((it[2] for it in found), key=ORDER.index)
        found = [it for it in found if it[2] == kind]
    return next((it for it in reversed(found) if it[0] - 1 <= WIDTH), found[0])


def broken(line, times=0):
    """The line in parts, each but the first one indented."""
    if len(line) <= WIDTH or times > 12:
        return [line]
    indent = len(line) - len(line.lstrip())
    let = line.find(" = let ")
    if let > 0 and not line.lstrip().startswith("let ") and line[:let].count("(") == line[:let].count(")"):
        return broken(line[:let + 2], times + 1) + broken(" " * (indent + 4) + line[let + 3:], times + 1)
    clause = r"\s*(ensures|requires)( \w+)? \{ |\s*ghost \w+ = \{ |\s*(let )?[^ ]* "
    got = best(line, re.match(clause, line).end())
    if not got:
        return [line]
    at, _, kind = got
    goes_on = line.split()[0] in OPERATORS and kind in OPERATORS
    deeper = 0 if kind == "in" or goes_on else 4
    return broken(line[:at].rstrip(), times + 1) + broken(" " * (indent + deeper) + line[at:], times + 1)


def filled(line):
    """A comment of a definition, in lines of at most 130 columns."""
    indent, words = line[:len(line) - len(line.lstrip())], line.strip()[3:].split(" ")
    lines = [""]
    for word in words:
        if len(indent) + 3 + len(lines[-1]) + 1 + len(word) > 130:
            lines.append("")
        lines[-1] = f"{lines[-1]} {word}".strip()
    return [f"{indent}-- {it}" for it in lines]


def imports(line, end):
    """An import of many names, as several imports."""
    got = re.match(r"(\s*(?:ghost )?use [^{]*\{)(.*)\}" + end + "$", line)
    if not got:
        return [line]
    head, lines = got.group(1), [[]]
    for name in got.group(2).split(", "):
        if len(head + ", ".join([*lines[-1], name]) + "}" + end) > WIDTH:
            lines.append([])
        lines[-1].append(name)
    return [head + ", ".join(it) + "}" + end for it in lines]


def parts(line, is_proof):
    text = line.lstrip()
    if len(line) <= WIDTH or not is_proof and text.startswith(("//", '"', "r#", "[")):
        return [line]
    if is_proof and text.startswith("--"):
        return filled(line)
    if re.match(r"\s*(ghost )?use ", line):
        return imports(line, "" if is_proof else ";")
    return broken(line)


def count():
    left = {}
    for path in sorted(glob.glob("crates/*/*/**/*.rt", recursive=True) + glob.glob("crates/*/*/**/*.antt", recursive=True)):
        crate, part = path.split("/")[1:3]
        if part in ("src", "specs", "proofs"):
            with open(path, encoding="utf-8") as file:
                long = sum(len(line.rstrip("\n")) > WIDTH for line in file)
            left[crate, part] = left.get((crate, part), 0) + long
    for (crate, part), number in left.items():
        if number:
            print(f"{crate}/{part}: {number}")
    print(f"{sum(left.values())} lines of more than {WIDTH} columns")


def main():
    if sys.argv[1:] == ["--count"]:
        return count()
    for path in sys.argv[1:]:
        with open(path, encoding="utf-8") as file:
            lines = file.read().split("\n")
        with open(path, "w", encoding="utf-8") as file:
            file.write("\n".join(it for line in lines for it in parts(line, path.endswith(".antt"))))


if __name__ == "__main__":
    main()
