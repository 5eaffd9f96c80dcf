#!/usr/bin/env python3
"""The table 'Scripts' of docs/PERF.md, with the program `jdoc` at a path:

    tools/measure.py crates/jdoc/out/jdoc            names the rows
    tools/measure.py crates/jdoc/out/jdoc time       measures them all
    tools/measure.py crates/jdoc/out/jdoc time WORD  measures those whose name has the word

A row has for each number of operations the seconds of the processor from the program's start to its end, the smallest of three runs (of
one where that took over three seconds), and then the bytes that it took at most for each operation of the longest script. With the word
`million` behind `time` each row goes on to a million operations."""
import resource
import subprocess
import sys
import tempfile

from where import where

BATCH = 256
# The most submissions that wait. Of a larger bundle this many are taken, and the rest comes with the next one.
QUEUE = 65_536
SIZES = (1_000, 10_000, 100_000)
MILLION = 1_000_000
RUNS = 3
# In seconds: a row that takes longer than the first runs once; one that takes longer than the second isn't tried at the next size.
LONG = 3.0
LONGEST = 6.0


def world(engines):
    """The first line, with engines that are members of one another."""
    members = ",".join(str(n + 1) for n in range(engines))
    one = ",".join(f"[{n + 1},[{members}],1,1,{QUEUE},{BATCH},4294967295]" for n in range(engines))
    return f'["world",[{one}]]'


def pushes(engine, commands, each=BATCH):
    """Commands of an engine, with a step after every so many of them."""
    for number, command in enumerate(commands, 1):
        yield f'["push",{engine},0,{command}]'
        if number % each == 0:
            yield f'["step",{engine}]'
    yield f'["step",{engine}]'


class Messages:
    """Hellos and bundles between engines, whose numbers rise over the whole script."""

    def __init__(self):
        self.next = 0

    def get(self, to, of, operations):
        """An engine gets what another one has, this many operations, and handles them."""
        for done in range(0, operations, QUEUE):
            yield f'["hello",{to},1]'
            yield f'["bundle",{of},1,{self.next}]'
            yield f'["deliver",{to},0,{self.next + 1}]'
            self.next += 2
            for _ in range(min(operations - done, QUEUE) // BATCH + 1):
                yield f'["step",{to}]'


def assign(key, value):
    return f'["assign",["{key}"],{value}]'


def keys(n, prefix="k"):
    return (assign(f"{prefix}{i:07}", i) for i in range(n))


def mixed(n, prefix="k"):
    return (assign(f"{prefix}{i * 7919 % n:07}", i) for i in range(n))


def falling(n):
    return (assign(f"k{n - i:07}", i) for i in range(n))


def paths(n):
    return (f'["assign",["p{i % 10}","a","b","c"],{i}]' for i in range(n))


def heads(n):
    return (f'["insert",["l",0],{i}]' for i in range(n))


def in_turn(n):
    return (assign("k", i) if i % 2 == 0 else '["delete",["k"]]' for i in range(n))


def one(commands, each=BATCH, before=(), after=()):
    def lines(n):
        yield world(1)
        yield from pushes(0, before)
        yield from pushes(0, commands(n), each)
        yield from after
    return lines


def meeting(engines, commands):
    """Engines write, and after every 256 operations of one they all meet."""
    def lines(n):
        messages = Messages()
        yield world(engines)
        yield from pushes(0, ['["assign",["l"],[]]'])
        for other in range(1, engines):
            yield from messages.get(other, 0, 1)
        writers = [commands(n // engines, engine) for engine in range(engines)]
        for _ in range(n // engines // BATCH + 1):
            for engine, rest in enumerate(writers):
                for command in (line for _, line in zip(range(BATCH), rest)):
                    yield f'["push",{engine},0,{command}]'
                yield f'["step",{engine}]'
            for to in range(engines):
                for of in range(engines):
                    if to != of:
                        yield from messages.get(to, of, BATCH)
    return lines


def apart(commands, all_writes=True, after=()):
    """Two engines write, the second one everything if the first doesn't, and the first gets what the second has at the end."""
    def lines(n):
        messages = Messages()
        yield world(2)
        yield from pushes(0, ['["assign",["l"],[]]'])
        yield from messages.get(1, 0, 1)
        for engine in (0, 1):
            if all_writes or engine == 1:
                yield from pushes(engine, commands(n // 2 if all_writes else n, engine))
        yield from messages.get(0, 1, n // 2 if all_writes else n)
        yield from after
    return lines


def own_keys(n, engine):
    return mixed(n, f"k{engine}")


def own_deletes(n, engine):
    return ('["delete",["l"]]' for _ in range(n))


def own_heads(n, engine):
    return heads(n)


def asked(question, times):
    return [f'["ask",0,1,{question}]'] * times


def after_last(n):
    return (f'["insert",["l",{i}],{i}]' for i in range(n))


def in_middle(n):
    return (f'["insert",["l",{(i + 1) // 2}],{i}]' for i in range(n))


LIST = ['["assign",["l"],[]]']
ROWS = {
    "assigns at one key": one(lambda n: (assign("k", i) for i in range(n))),
    "assigns at new keys, in rising order": one(keys),
    "the same, in mixed order": one(mixed),
    "the same, in falling order": one(falling),
    "assigns at ten paths of four keys, in turn": one(paths),
    "inserts at a list's head": one(heads, before=LIST),
    "assigns and deletes in turn": one(in_turn),
    "inserts after the last item, by its position": one(after_last, each=1, before=LIST),
    "inserts in the middle, by the position": one(in_middle, each=1, before=LIST),
    "two write keys, and meet after each 256": meeting(2, own_keys),
    "two insert at heads, and meet after each 256": meeting(2, own_heads),
    "three write keys, and meet after each 256": meeting(3, own_keys),
    "sixteen write keys, and meet after each 256": meeting(16, own_keys),
    "one writes keys, the other gets all of it at the end": apart(own_keys, all_writes=False),
    "two write keys apart, and meet once at the end": apart(own_keys),
    "two insert at heads apart, and meet once at the end": apart(own_heads),
    "two delete apart, and meet once at the end": apart(own_deletes),
    "keys apart, and then a clear of all of them": apart(own_keys, after=['["push",0,0,["delete",[]]]', '["step",0]']),
    "inserts at a list's head, and then a clear of the list": one(heads, before=LIST, after=list(pushes(0, ['["assign",["l"],[]]']))),
    "keys, read once as a whole": one(keys, after=asked('["keys",[]]', 1)),
    "items of a list, read once as a whole": one(heads, before=LIST, after=asked('["items",["l"]]', 1)),
    "keys, and a hundred thousand readings of one": one(keys, after=asked('["values",["k0000007"]]', 100_000)),
    "keys, and a hundred thousand vectors": one(keys, after=asked('["vector"]', 100_000)),
}


def measured(command):
    """Seconds of the processor and the most bytes that a command took. Children are counted by a process of their own."""
    code = (
        "import resource, subprocess, sys\n"
        "done = subprocess.run(sys.argv[1:], stdout=subprocess.DEVNULL)\n"
        "used = resource.getrusage(resource.RUSAGE_CHILDREN)\n"
        "print(used.ru_utime + used.ru_stime, used.ru_maxrss * 1024, done.returncode)\n"
    )
    told = subprocess.run([sys.executable, "-c", code, *command], capture_output=True, text=True).stdout.split()
    if told[2] != "0":
        sys.exit(f"{command[0]} ended with {told[2]}")
    return float(told[0]), int(told[1])


def timed(command):
    """The smallest seconds, and the most bytes, of the runs of a command."""
    told = [measured(command)]
    while len(told) < RUNS and told[0][0] <= LONG:
        told.append(measured(command))
    return min(seconds for seconds, _ in told), max(taken for _, taken in told)


def row(jdoc, name, lines, sizes):
    """Prints a row as it is measured."""
    print(f"| {name} |", end="", flush=True)
    each = seconds = 0
    for size in sizes:
        if seconds > LONGEST:
            print(" - |", end="")
            continue
        with tempfile.NamedTemporaryFile("w", suffix=".jsonl") as file:
            file.writelines(f"{line}\n" for line in lines(size))
            file.flush()
            seconds, taken = timed([jdoc, "run", file.name])
        each = taken / size
        print(f" {seconds:.2f} |", end="", flush=True)
    print(f" {each:,.0f} |")


def main():
    jdoc, *words = sys.argv[1:] or sys.exit(__doc__)
    if not words:
        print("\n".join(ROWS))
        return
    sizes = (*SIZES, MILLION) if "million" in words else SIZES
    wanted = " ".join(it for it in words if it not in ("time", "million"))
    print(where())
    print()
    print("| operations | " + " | ".join(f"{it:,}" for it in sizes) + " | bytes each |")
    print("|---|" + "---|" * (len(sizes) + 1))
    for name, lines in ROWS.items():
        if wanted in name:
            row(jdoc, name, lines, sizes)


if __name__ == "__main__":
    resource.setrlimit(resource.RLIMIT_CORE, (0, 0))
    main()
