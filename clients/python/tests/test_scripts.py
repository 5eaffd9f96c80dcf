"""The repository's own scripts and sessions, with a document for each of their engines.

A document has no queue: what a script pushes waits here for the step that handles it. What a client can't say isn't played, and replies
that it doesn't get aren't compared: those are `None`.
"""
from __future__ import annotations

import json
import unittest
from pathlib import Path
from typing import Any, Callable, Iterator, Optional

from jdoc import Document, ItemId, Refused
from support import TOP, Case

EXAMPLES = ["first", "shopping", "two_replicas", "lost_line"]
SESSIONS = [
    "a_key_below_what_is_deleted", "a_map_and_a_list_at_one_key", "a_new_engine", "a_nonmember_inserts", "a_nonmember_writes",
    "a_shopping_list", "an_item_deleted_and_assigned", "an_order_of_items", "both_values_stand", "forged_operations",
    "items_by_their_ids", "lines_out_of_order", "one_write_read_by_all",
]


class Unsayable(Exception):
    """A client has no call for this."""


def path_of(expression: list[Any]) -> list[Any]:
    """The path of an expression, whose positions count from 1."""
    if 0 in [it for it in expression if isinstance(it, int)]:
        raise Unsayable
    return [ItemId(*it) if isinstance(it, list) else it - 1 if isinstance(it, int) else it for it in expression]


class Engine:
    """A document, what waits for its next step, and the replies to what was handled, by client and serial."""

    def __init__(self, document: Document) -> None:
        self.document = document
        self.waiting: list[tuple[int, Callable[[], None]]] = []
        self.serials: dict[int, int] = {}
        self.replies: dict[tuple[int, int], Any] = {}

    def submit(self, client: int, count: int, call: Callable[[], list[Any]]) -> int:
        """Makes the call wait, which stands for this many submissions, and returns the serial of the first one."""
        first = self.serials.get(client, 0) + 1
        self.serials[client] = first + count - 1

        def handle() -> None:
            self.replies.update({(client, first + at): reply for at, reply in enumerate(call())})

        self.waiting.append((count, handle))
        return first

    def step(self) -> list[Any]:
        waiting, self.waiting = self.waiting, []
        for _, handle in waiting:
            handle()
        count = sum(it for it, _ in waiting)
        return ["published", count] if count else ["idle"]

    def command(self, name: str, expression: list[Any], *value: Any) -> list[Any]:
        document, length = self.document, len(self.document)
        try:
            if name == "insert" and expression[-1:] == [0]:
                made = document.insert(path_of(expression[:-1]), 0, *value)
            elif name == "insert":
                made = document.insert_after(path_of(expression), *value)
            elif name == "assign":
                made = document.set(path_of(expression), *value)
            else:
                made = document.delete(path_of(expression))
        except Refused as it:
            return [["refused", it.code, length]]
        except Unsayable:
            return [None]
        return [["made", [*made], length]]

    def receive(self, lines: str) -> list[Any]:
        """A receipt reports no single line except the first that was refused."""
        receipt = self.document.receive(lines.encode())
        replies: list[Any] = [None] * lines.count("\n")
        if receipt.first_refused:
            replies[receipt.first_refused.line - 1] = ["refused", receipt.first_refused.code]
        return replies

    def ask(self, name: str, *words: Any) -> Any:
        document, length = self.document, len(self.document)
        try:
            if name == "vector":
                return ["reading", length, json.loads(document.hello())[1]]
            if name == "missing":
                lines = document.answer(json.dumps(["hello", *words]).encode()).lines.splitlines()
                # The first line of a bundle has its whole vector, as the answer to this question has.
                return ["reading", length, [["op", *json.loads(it)[1:]] for it in lines]] if len(lines) < 2 else None
            answer = {"values": document.values, "keys": document.keys, "items": document.items, "conflicts": document.conflicts}[name]
            return ["reading", length, json.loads(json.dumps(answer(path_of(*words))))]
        except Refused as it:
            return ["refused", it.code, length]
        except Unsayable:
            return None


class World:
    """The engines of a script, and the messages that they sent."""

    def __init__(self, engines: list[Engine]) -> None:
        self.engines = engines
        self.messages: list[bytes] = []

    def play(self, word: str, at: int, *words: Any) -> Any:
        """The reply to a step."""
        engine = self.engines[at]
        if word == "push":
            return ["ticket", engine.submit(words[0], 1, lambda: engine.command(*words[1]))]
        if word == "step":
            return engine.step()
        if word == "poll":
            return engine.replies.get((words[0], words[1]), ["none"])
        if word == "ask":
            return engine.ask(*words[1])
        if word == "hello":
            self.messages.append(engine.document.hello())
            return ["message", len(self.messages) - 1, json.loads(self.messages[-1])[1]]
        if word == "bundle":
            self.messages.append(engine.document.answer(self.messages[words[1]]).lines)
            return ["message", len(self.messages) - 1, self.messages[-1].count(b"\n")]
        if word in ("deliver", "line"):
            lines = words[1] if word == "line" else self.messages[words[1]].decode()
            count = lines.count("\n")
            first = engine.submit(words[0], count, lambda: engine.receive(lines))
            return ["received", first if count else 0, count]
        if word == "learn":
            return None
        raise Unsayable(word)


def is_told(expected: Any, reply: Any) -> bool:
    """Whether the reply is as expected, as far as a client gets to see it."""
    if expected[0] == "refused" and reply[0] == "refused":
        return bool(expected[: len(reply)] == reply)
    return bool(expected == reply)


def example(name: str) -> Iterator[tuple[Any, Any]]:
    """Each line of a script with its reply."""
    lines = (TOP / f"examples/{name}.jsonl").read_text(encoding="utf-8").splitlines()
    replies = (TOP / f"examples/{name}.replies").read_text(encoding="utf-8").splitlines()
    yield from zip(map(json.loads, lines), [None, *map(json.loads, replies)])


def session(path: Path) -> Iterator[tuple[Any, Any]]:
    """Each line of a session with its reply."""
    step: Optional[Any] = None
    for line in path.read_text(encoding="utf-8").splitlines():
        if line.startswith("> "):
            if step and step[0].startswith("world"):
                yield step, None
            step = json.loads(line[2:])
        elif line.startswith("< "):
            yield step, json.loads(line[2:])


class Scripts(Case):
    def played(self, lines: Iterator[tuple[Any, Any]]) -> int:
        """Plays a script, and returns how many replies were compared."""
        world, compared = World([]), 0
        for step, expected in lines:
            if step[0].startswith("world"):
                world = World([Engine(self.open(number=it[0])) for it in step[1]])
                continue
            reply = world.play(*step)
            if reply is not None:
                # A ticket and a count are made here, not by the document.
                compared += step[0] not in ("push", "step")
                self.assertTrue(is_told(expected, reply), f"{step}: {reply}, not {expected}")
        return compared

    def test_examples(self) -> None:
        for name in EXAMPLES:
            with self.subTest(name):
                self.assertGreater(self.played(example(name)), 0)

    def test_sessions(self) -> None:
        for name in SESSIONS:
            with self.subTest(name):
                self.assertGreater(self.played(session(TOP / f"tests/scripts/{name}.session")), 0)


if __name__ == "__main__":
    unittest.main()
