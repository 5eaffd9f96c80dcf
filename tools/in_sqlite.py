#!/usr/bin/env python3
"""tools/in_sqlite.py SCRIPT: does the commands of a script's pushes on one row of a table of SQLite in memory, with its JSON functions,
and prints the document as JSON. Each change rewrites the whole text. It keeps neither history nor conflicts."""
import json
import sqlite3
import sys


def main():
    table = sqlite3.connect(":memory:", isolation_level=None)
    table.execute("create table documents (text)")
    table.execute("insert into documents values ('{}')")
    for line in open(sys.argv[1]):
        step = json.loads(line)
        if step[0] == "push":
            change(table, *step[3])
    print(table.execute("select text from documents").fetchone()[0])


def change(table, verb, path, value=None):
    place = "$" + "".join(f"[{step}]" if isinstance(step, int) else f'."{step}"' for step in path)
    if verb == "delete":
        table.execute("update documents set text = json_remove(text, ?)", [place])
    elif verb == "assign":
        table.execute("update documents set text = json_set(text, ?, json(?))", [place, json.dumps(value)])
    elif path[-1] == 0:
        # No function inserts before the first item: the list is rebuilt.
        at = "$." + path[0]
        table.execute(
            "update documents set text = json_set(text, ?, json('[' || ? || substr(',', 1, json_array_length(text, ?) > 0)"
            " || substr(json_extract(text, ?), 2)))",
            [at, json.dumps(value), at, at],
        )
    else:
        table.execute("update documents set text = json_insert(text, ?, json(?))", [place, json.dumps(value)])


if __name__ == "__main__":
    main()
