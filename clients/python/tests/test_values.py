"""What is checked of a value before anything of it is written. The limits are those of docs/RULES.md, 'Limits'."""
from __future__ import annotations

import unittest
from typing import Any, Callable, Iterator, Mapping

from jdoc import Document, ItemId, Refused
from support import Case

MOST_DEPTH = 32
# A value with a part that no document holds, the refusal, and the way to that part.
BAD_PARTS: list[tuple[Any, str, tuple[Any, ...]]] = [
    ({"name": "n", "bio": "x" * 4097, "city": "c"}, "E7", ("bio",)),
    ({"a": [1, {"b": "é" * 2049}]}, "E7", ("a", 1, "b")),
    ({"first": 1, "k" * 257: 1}, "E6", ("k" * 257,)),
    ([{"é" * 129: 1}], "E6", (0, "é" * 129)),
    ([1, 2, 0.5], "E21", (2,)),
    ({"n": [2**63]}, "E21", ("n", 0)),
    ({"n": -(2**63) - 1}, "E21", ("n",)),
    ([[float("nan")]], "E21", (0, 0)),
]


def in_maps(levels: int) -> Any:
    """An empty map within so many maps."""
    return {"k": in_maps(levels - 1)} if levels else {}


def in_lists(levels: int) -> Any:
    """An empty list within so many lists."""
    return [in_lists(levels - 1)] if levels else []


class Changing(Mapping[str, Any]):
    """A map that shows something else each time that it is looked at, as if another thread changed it."""

    def __init__(self) -> None:
        self._looks = 0

    def __len__(self) -> int:
        return 1

    def __iter__(self) -> Iterator[str]:
        return iter(["k"])

    def __getitem__(self, _: str) -> Any:
        self._looks += 1
        return "good" if self._looks == 1 else "x" * 5000


class Parts(Case):
    def writes(self) -> tuple[Document, list[Callable[[Any], ItemId]]]:
        """A document, and each call that writes a value into it at an element with a depth of 2."""
        document = self.open(number=1)
        document.set("m", {"v": {"what": "stood there"}})
        document.set("l", ["first", "last"])
        return document, [
            lambda value: document.set(("m", "v"), value), lambda value: document.insert("l", 1, value),
            lambda value: document.insert_after(("l", 0), value), lambda value: document.append("l", value),
        ]

    def test_a_bad_part_is_named_and_nothing_is_written(self) -> None:
        document, writes = self.writes()
        before, length = document.get(), len(document)
        for value, code, part in BAD_PARTS:
            for write in writes:
                with self.assertRaises(Refused) as refused:
                    write(value)
                self.assertEqual((refused.exception.code, refused.exception.part), (code, part))
                self.assertIn(f", in the value at {list(part)!r}", str(refused.exception))
        self.assertEqual((document.get(), len(document)), (before, length))

    def test_the_deepest_value_that_fits_is_written(self) -> None:
        for made, step in ((in_maps, "k"), (in_lists, 0)):
            document, writes = self.writes()
            for write in writes:
                before, length = document.get(), len(document)
                with self.assertRaises(Refused) as refused:
                    write(made(MOST_DEPTH - 1))
                self.assertEqual((refused.exception.code, refused.exception.part), ("E5", (step,) * (MOST_DEPTH - 1)))
                self.assertEqual((document.get(), len(document)), (before, length))
                write(made(MOST_DEPTH - 2))
                self.assertEqual(len(document), length + MOST_DEPTH - 1)

    def test_the_engine_has_the_same_bound(self) -> None:
        document, path = self.open(number=1), ["k"] * MOST_DEPTH
        for call in (lambda: document.set([*path, "k"], 1), lambda: document.insert(path, 0, 1)):
            with self.assertRaises(Refused) as refused:
                call()
            self.assertEqual((refused.exception.code, refused.exception.part), ("E5", ()))
        document.set(path, [])
        document.insert(path[1:], 0, 1)

    def test_a_value_within_itself_is_too_deep(self) -> None:
        document = self.open(number=1)
        value: list[Any] = []
        value.append(value)
        with self.assertRaisesRegex(Refused, "E5"):
            document.set("k", value)
        self.assertEqual(len(document), 0)

    def test_other_faults_name_their_part_too(self) -> None:
        document = self.open(number=1)
        rows: list[tuple[Any, type[Exception]]] = [
            ({"a": [0, "\ud800"]}, UnicodeEncodeError), ({"a": [0, b"bytes"]}, TypeError), ({"a": [0, {1: 2}]}, TypeError),
        ]
        for value, kind in rows:
            with self.assertRaisesRegex(kind, r", in the value at \['a', 1\]"):
                document.set("k", value)
        self.assertEqual(len(document), 0)

    def test_what_was_checked_is_what_is_written(self) -> None:
        document = self.open(number=1)
        document.set("m", Changing())
        self.assertEqual(document.get("m"), {"k": "good"})

    def test_a_refusal_half_way_says_where(self) -> None:
        replies = ['["ready",1,0]', '["made",[1,1],0]', '["made",[2,1],1]', '["made",[3,1],2]', '["refused","E8"]']
        said = "; read -r line; ".join(f"echo '{it}'" for it in replies)
        document = self.open(program=["sh", "-c", f"{said}; read -r line"])
        with self.assertRaises(Refused) as refused:
            document.set("k", {"a": 1, "b": ["item", "no room"]})
        self.assertEqual((refused.exception.code, refused.exception.part), ("E8", ("b", 0)))


if __name__ == "__main__":
    unittest.main()
