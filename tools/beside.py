#!/usr/bin/env python3
"""The table 'Beside others' of docs/PERF.md, with the program `jdoc` at a path:

    tools/beside.py crates/jdoc/out/jdoc            names the rows
    tools/beside.py crates/jdoc/out/jdoc time       measures them all

Each row has the seconds of the processor, the smallest of three runs (of one where that took over three seconds), and the bytes a command
that jdoc, plain maps (floor.rs), Yjs (in_yjs.js) and SQLite (in_sqlite.py) take for the same script. The plain maps are compiled twice:
with a parser of their own, by `rustc`, and with serde_json, by `cargo`. Tests that both print the same lines as jdoc, and that Yjs and
SQLite end with the same keys, or with as many items. It wants Debian's packages librust-serde-json-dev and node-yjs."""
import json
import os
import shutil
import subprocess
import sys
import tempfile

from measure import LIST, after_last, apart, asked, assign, heads, in_turn, keys, mixed, one, own_heads, own_keys, paths, timed
from where import where

WHO = ("jdoc", "plain maps with serde_json", "plain maps", "Yjs", "SQLite")
KEYS = asked('["keys",[]]', 1)
ITEMS = asked('["items",["l"]]', 1)
# Each with the most commands with which SQLite and Yjs are tried.
BESIDE = {
    "assigns at one key": (one(lambda n: (assign("k", i) for i in range(n)), after=KEYS), (100_000,), 100_000, 100_000),
    "assigns at new keys, in mixed order": (one(mixed, after=KEYS), (10_000, 100_000), 10_000, 100_000),
    "the same, in rising order": (one(keys, after=KEYS), (100_000,), 0, 100_000),
    "assigns at ten paths of four keys, in turn": (one(paths, after=KEYS), (100_000,), 0, 100_000),
    "inserts at a list's head": (one(heads, before=LIST, after=ITEMS), (10_000, 100_000), 10_000, 100_000),
    "inserts after the last item, by its position": (one(after_last, each=1, before=LIST, after=ITEMS), (10_000, 100_000), 10_000, 10_000),
    "assigns and deletes in turn": (one(in_turn, after=KEYS), (100_000,), 100_000, 100_000),
    "two write keys apart, and meet once at the end": (apart(own_keys, after=KEYS), (10_000, 100_000), 0, 100_000),
    "two insert at heads apart, and meet once at the end": (apart(own_heads), (10_000, 100_000), 0, 10_000),
}
# Where Debian's packages put the source of serde_json, and Yjs.
CRATES = "/usr/share/cargo/registry"
os.environ["NODE_PATH"] = "/usr/share/nodejs"
TOOLS = os.path.dirname(os.path.abspath(__file__))


def printed(command):
    return subprocess.run(command, capture_output=True, text=True, check=True).stdout


def shown(document):
    """What the question at the end of a script asks for: the keys in order, or how many items the list has."""
    return len(document["l"]) if "l" in document else sorted(document)


def told(reply):
    """The same from its answer: keys are texts, and anything else that is listed is an item."""
    said = reply[-1]
    return len(said) if said and not isinstance(said[0], str) else said


def by_cargo(folder):
    """The plain maps, compiled with serde_json."""
    os.makedirs(f"{folder}/floor_serde/src")
    shutil.copy(f"{TOOLS}/floor.rs", f"{folder}/floor_serde/src/main.rs")
    with open(f"{folder}/floor_serde/Cargo.toml", "w", encoding="utf-8") as file:
        file.write('[package]\nname = "floor"\nversion = "0.0.0"\nedition = "2024"\n[dependencies]\nserde_json = "1"\n')
    source = ["--config", 'source.crates-io.replace-with="debian"', "--config", f'source.debian.directory="{CRATES}"']
    command = ["cargo", "build", "--release", "--offline", "--quiet", *source]
    subprocess.run(command, cwd=f"{folder}/floor_serde", env={**os.environ, "RUSTFLAGS": "--cfg serde -A unexpected_cfgs"}, check=True)
    return f"{folder}/floor_serde/target/release/floor"


def main():
    words = sys.argv[1:]
    if not words:
        sys.exit(__doc__)
    if "time" not in words[1:2]:
        print("\n".join(BESIDE))
        return
    with tempfile.TemporaryDirectory() as folder:
        script = f"{folder}/script.jsonl"
        rustc = ["rustc", "-O", "--edition", "2024", "-A", "unexpected_cfgs"]
        subprocess.run([*rustc, f"{TOOLS}/floor.rs", "-o", f"{folder}/floor"], check=True)
        floors = {"plain maps": [f"{folder}/floor", script], "plain maps with serde_json": [by_cargo(folder), script]}
        print(where())
        print()
        print(f"| | commands | {' | '.join(WHO)} |")
        print("|---|---|" + "---|" * len(WHO))
        for name, (lines, sizes, in_sqlite, in_yjs) in BESIDE.items():
            for size in sizes:
                with open(script, "w", encoding="utf-8") as file:
                    file.writelines(line + "\n" for line in lines(size))
                cells = cells_of(words[0], floors, script, size, size <= in_sqlite, size <= in_yjs)
                print(f"| {name} | {size:,} | " + " | ".join(cells.get(it, "-") for it in WHO) + " |", flush=True)


def cells_of(jdoc, floors, path, size, with_sqlite, with_yjs):
    """The cells of a row by program, once all programs were seen to end up the same."""
    replies = printed([jdoc, "run", path])
    last = json.loads(replies.splitlines()[-1])
    asks = last[0] == "reading"
    for who, command in floors.items():
        if printed(command) != replies:
            sys.exit(f"{who} print something else: {path}")
    commands = {"jdoc": [jdoc, "run", path], **floors}
    if with_yjs:
        commands["Yjs"] = ["node", f"{TOOLS}/in_yjs.js", path]
        if asks and told(json.loads(printed(commands["Yjs"]).splitlines()[-1])) != told(last):
            sys.exit(f"Yjs ends differently: {path}")
    if with_sqlite:
        commands["SQLite"] = [sys.executable, f"{TOOLS}/in_sqlite.py", path]
        if shown(json.loads(printed(commands["SQLite"]))) != told(last):
            sys.exit(f"SQLite ends differently: {path}")
    taken = {who: timed(command) for who, command in commands.items()}
    return {who: f"{seconds:.2f}; {room / size:,.0f}" for who, (seconds, room) in taken.items()}


if __name__ == "__main__":
    main()
