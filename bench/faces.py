#!/usr/bin/env python3
"""bench/faces.py [time] [COUNT]: how long a write with its reply, a reading and a received line take through each face of the engine.

The program is the environment's JDOC, else the one that `rt run` in crates/jdoc made; the library is proved and built if it isn't yet.
Plays COUNT writes, readings and received lines through each face (by default 10000), checks the replies, and prints the names of the
faces. With the word `time` it plays each five times, and prints the median microseconds of a write, a reading and a line, from call to
answer. Yjs is played too if node finds it (Debian's package node-yjs). The documents are in memory: nothing is synced. Nothing else may
run at the same time."""
import json
import os
import shutil
import statistics
import subprocess
import sys
import tempfile
import time
from pathlib import Path

TOP = Path(__file__).resolve().parents[1]
sys.path[:0] = [str(TOP / 'clients/python'), str(TOP / 'tools')]
from jdoc import Document  # noqa: E402
from where import where  # noqa: E402
os.environ.setdefault('NODE_PATH', '/usr/share/nodejs')

PROGRAM = os.environ.get('JDOC', TOP / 'crates/jdoc/out/jdoc')
LIBRARY = TOP / 'crates/jdoc_c/out'
KEYS = 100
TURNS = 5


class Pipe:
    """Lines to `jdoc serve`, without a package in between."""

    def __init__(self, number):
        words = [PROGRAM, 'serve', '--number', str(number)]
        self.process = subprocess.Popen(words, stdin=subprocess.PIPE, stdout=subprocess.PIPE)
        self.process.stdout.readline()

    def ask(self, line, begin):
        self.process.stdin.write(line)
        self.process.stdin.flush()
        reply = self.process.stdout.readline()
        assert reply.startswith(begin), reply[:80]
        return reply

    def close(self):
        self.process.stdin.close()
        self.process.stdout.close()
        self.process.wait()


def by_pipe(count):
    """The seconds of this many writes, readings and received lines, for a process that writes lines to another."""
    document, peer = Pipe(1), Pipe(2)
    began = time.perf_counter()
    for index in range(count):
        document.ask(b'["assign",["k%d"],%d]\n' % (index % KEYS, index), b'["made",')
    wrote = time.perf_counter()
    for index in range(count):
        document.ask(b'["values",["k%d"]]\n' % (index % KEYS), b'["reading",')
    read = time.perf_counter()
    received, more = 0.0, True
    while more:
        hello = peer.ask(b'["hello"]\n', b'["hello",').decode()
        _, lines, more, _ = json.loads(document.ask(json.dumps(['answer', hello]).encode() + b'\n', b'["bundle",'))
        request = json.dumps(['receive', lines]).encode() + b'\n'
        at = time.perf_counter()
        peer.ask(request, b'["received",')
        received += time.perf_counter() - at
    assert peer.ask(b'["status"]\n', b'["status",2,%d,' % count)
    document.close()
    peer.close()
    return wrote - began, read - wrote, received


def by_python(**how):
    """The same through the package, with the program or with the library."""
    def play(count):
        with Document.open(number=1, **how) as document, Document.open(number=2, **how) as peer:
            return played_by(document, peer, count)
    return play


def played_by(document, peer, count):
    """The seconds for documents of the package."""
    began = time.perf_counter()
    for index in range(count):
        document.set(f'k{index % KEYS}', index)
    wrote = time.perf_counter()
    for index in range(count):
        document.values(f'k{index % KEYS}')
    read = time.perf_counter()
    received, more = 0.0, True
    while more:
        lines, more, _ = document.answer(peer.hello())
        at = time.perf_counter()
        receipt = peer.receive(lines)
        received += time.perf_counter() - at
        assert not receipt.refused and not receipt.stopped, receipt
    assert len(peer) == count
    return wrote - began, read - wrote, received


def by_program(program):
    """The same for a program that prints the seconds."""
    def play(count):
        done = subprocess.run([program, str(count)], stdout=subprocess.PIPE, check=True)
        return tuple(map(float, done.stdout.split()))
    return play


def by_yjs(count):
    """The same for Yjs, which keeps no answers: a program of node's prints the seconds."""
    done = subprocess.run(['node', TOP / 'bench/faces.js', str(count)], stdout=subprocess.PIPE, check=True)
    return tuple(map(float, done.stdout.split()))


def faces(room):
    """Each face that can be played here, with what plays it."""
    page = subprocess.run(['rt', 'doc'], stdout=subprocess.PIPE, text=True, check=True).stdout
    kit = Path(page.strip()).parent / 'c'
    shared = room / 'libjdoc.so'
    subprocess.run([TOP / 'clients/python/build_library', shared], check=True)
    yield 'C', by_program(built_in_c(room, kit))
    if shutil.which('cargo'):
        yield 'Rust', by_program(built_in_rust(room, kit))
    yield 'a pipe', by_pipe
    yield 'Python, by the library', by_python(library=shared)
    yield 'Python, by a pipe', by_python(program=PROGRAM)
    if shutil.which('node') and subprocess.run(['node', '-e', 'require("yjs")'], stderr=subprocess.DEVNULL).returncode == 0:
        yield 'Yjs in node', by_yjs


def built_in_c(room, kit):
    program = room / 'faces_in_c'
    libraries = [LIBRARY / 'libjdoc_c.a', kit / 'liblibc_c.a']
    subprocess.run(['cc', '-std=c11', '-O2', f'-I{TOP}/include', '-o', program, TOP / 'bench/faces.c', *libraries], check=True)
    return program


def built_in_rust(room, kit):
    crate = room / 'crate'
    shutil.copytree(TOP / 'clients/rust', crate, ignore=shutil.ignore_patterns('target'))
    shutil.copy(TOP / 'bench/faces.rs', crate / 'examples/faces.rs')
    words = ['cargo', 'build', '--offline', '--quiet', '--release', '--example', 'faces']
    environment = {**os.environ, 'JDOC_LIBRARIES': f'{LIBRARY}:{kit}', 'CARGO_TARGET_DIR': str(room / 'target')}
    subprocess.run(words, cwd=crate, env=environment, check=True)
    return room / 'target/release/examples/faces'


def main():
    words = sys.argv[1:]
    is_timed = 'time' in words
    counts = [int(word) for word in words if word != 'time'] or [10_000]
    if is_timed:
        print(f'{where()}\n\n| | a write | a reading | a received line |\n|---|---|---|---|', flush=True)
    with tempfile.TemporaryDirectory() as room:
        for name, play in faces(Path(room)):
            played = [play(counts[0]) for _ in range(TURNS if is_timed else 1)]
            if is_timed:
                each = (statistics.median(column) / counts[0] * 1e6 for column in zip(*played))
                print('|', name, '|', ' | '.join(f'{it:.1f}' for it in each), '|', flush=True)
            else:
                print(name, flush=True)


main()
