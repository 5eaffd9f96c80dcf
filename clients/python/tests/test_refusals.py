"""Every refusal that a client can meet. What is expected was worked out from docs/RULES.md and docs/FORMATS.md."""
from __future__ import annotations

import re
import unittest
from typing import Any, Callable, cast

from jdoc import REFUSALS, BadLine, Document, ItemId, Receipt, Refused
from support import TOP, Case

# Two operations of others, 1@9 and 2@8, which depends on it.
BASE = b'["op",[1,9],[],[["m",0]],"a",["a",1]]\n["op",[2,8],[[9,1]],[["m",0]],"b",["a",1]]\n'
# Operations of peers that are refused where those two are applied, in a document of number 1.
REFUSED_OPERATIONS = [
    ("E4", '["op",[1,7],[],[["m",0]],"a",["i",1]]'),
    ("E14", '["op",[7,7],[],[["m",0]],"a",["d"]]'),
    ("E15", '["op",[3,9],[[8,2]],[["m",0]],"a",["d"]]'),
    ("E16", '["op",[2,7],[[8,1]],[["m",0]],"a",["d"]]'),
    ("E17", '["op",[3,7],[[8,2]],[["m",0]],"a",["d"]]'),
    ("E18", '["op",[1,7],[],[["m",0],["l","l"]],1,["a",1]]'),
    ("E18", '["op",[3,7],[[8,2],[9,1]],[["m",0],["l","l"]],[2,8],["a",1]]'),
    ("E20", '["op",[1,1],[],[["m",0]],"a",["d"]]'),
]
# Lines at which every receipt stops.
BAD_LINES = [
    ("E5", '["op",[1,7],[],[["m",0]' + ',["m","k"]' * 32 + '],"k",["d"]]'),
    ("E6", f'["op",[1,7],[],[["m",0]],"{"k" * 257}",["d"]]'),
    ("E7", f'["op",[1,7],[],[["m",0]],"k",["a","{"t" * 4097}"]]'),
    ("E21", '["op",[1,7],[],[["m",0]],"k",["a",1.5]]'),
    ("E22", "nonsense"),
    ("E22", '["op",[1,7],[],[["m",0]],"k",["a","\\ud800"]]'),
    ("E22", ""),
]


class Refusals(Case):
    def test_their_words_are_those_of_the_rules(self) -> None:
        rules = (TOP / "docs/RULES.md").read_text(encoding="utf-8").replace("`", "")
        rows = re.findall(r"^\| (E\d+) \| (\w+) \| (.*?) \| .*? \|$", rules, re.MULTILINE)
        self.assertEqual(REFUSALS, {number: (name, when) for number, name, when in rows})

    def test_calls_are_refused_and_change_nothing(self) -> None:
        document = self.open(number=1)
        document.set("l", ["item"])
        before, half = document.get(), cast(Any, 0.5)
        calls: list[tuple[str, Callable[[], Any]]] = [
            ("E3", lambda: document.get("l", 1)),
            ("E3", lambda: document.set(("l", 1), 1)),
            ("E3", lambda: document.insert("l", 2, 1)),
            ("E3", lambda: document.delete(("l", ItemId(9, 9)))),
            ("E4", lambda: document.insert_after("l", 1)),
            ("E4", lambda: document.insert_after((), 1)),
            ("E5", lambda: document.set(["k"] * 33, 1)),
            ("E5", lambda: document.values(["k"] * 33)),
            ("E6", lambda: document.set("k" * 257, 1)),
            ("E6", lambda: document.keys("é" * 129)),
            ("E7", lambda: document.set("k", "t" * 4097)),
            ("E21", lambda: document.set("k", half)),
            ("E22", lambda: document.get("l", 2**64)),
            ("E22", lambda: document.set(("l", ItemId(0, 1)), 1)),
        ]
        for code, call in calls:
            with self.subTest(code), self.assertRaises(Refused) as refused:
                call()
            self.assertEqual(refused.exception.code, code)
            self.assertEqual(str(refused.exception), f"{code} {REFUSALS[code][0]}: {REFUSALS[code][1]}")
        self.assertEqual((document.get(), len(document)), (before, 2))

    def test_what_just_fits_is_taken(self) -> None:
        document = self.open(number=1)
        document.set(["k"] * 32, "t" * 4096)
        document.set("é" * 128, 1)
        self.assertEqual(document.get(["k"] * 32), "t" * 4096)
        self.assertEqual(document.get("é" * 128), 1)


class Bundles(Case):
    def received(self) -> Document:
        document = self.open(number=1)
        self.assertEqual(document.receive(BASE), Receipt(2, 0, None, None))
        return document

    def test_operations_are_refused_one_by_one(self) -> None:
        document = self.received()
        for code, line in REFUSED_OPERATIONS:
            with self.subTest(line):
                self.assertEqual(document.receive(line.encode() + b"\n"), Receipt(1, 1, BadLine(1, code), None))
        lines = BASE + "".join(f"{line}\n" for _, line in REFUSED_OPERATIONS).encode()
        count = len(REFUSED_OPERATIONS)
        self.assertEqual(document.receive(lines), Receipt(2 + count, count, BadLine(3, "E4"), None))
        self.assertEqual(len(document), 2)

    def test_bad_lines_stop_a_receipt(self) -> None:
        document = self.received()
        for code, line in BAD_LINES:
            with self.subTest(code):
                self.assertEqual(document.receive(BASE + line.encode() + b"\n" + BASE), Receipt(2, 0, None, BadLine(3, code)))
        self.assertEqual(len(document), 2)

    def test_a_document_is_written_by_256_numbers(self) -> None:
        document = self.open(number=1)
        lines = "".join(f'["op",[1,{it}],[],[["m",0]],"k",["a",{it}]]\n' for it in range(2, 258))
        self.assertEqual(document.receive(lines.encode()), Receipt(256, 1, BadLine(256, "E13"), None))

    def test_no_more_than_4096_operations_wait(self) -> None:
        document = self.open(number=1)
        lines = "".join(f'["op",[3,{it}],[[9999,2]],[["m",0]],"k",["a",{it}]]\n' for it in range(2, 4099))
        self.assertEqual(document.receive(lines.encode()), Receipt(4097, 1, BadLine(4097, "E19"), None))
        self.assertEqual(len(document), 0)


if __name__ == "__main__":
    unittest.main()
