"""What a document holds, and how it is read and written."""
from __future__ import annotations

import json
import re
import unittest
from random import Random
from typing import Any

from jdoc import Document, ItemId, Refused, Status
from support import TOP, Case


class Values(Case):
    def test_nested_values_are_read_back(self) -> None:
        document = self.open(number=1)
        value: Any = {"text": 'quote " \\ line\nfeed é 🧀', "none": None, "yes": True, "least": -(2**63), "most": 2**63 - 1,
                 "list": [1, [], {}, [2, {"deep": [3]}]], "map": {}}
        document.set("all", value)
        self.assertEqual(document.get("all"), value)
        self.assertEqual(json.loads(document.to_json()), {"all": value})

    def test_the_root_is_set_as_any_place(self) -> None:
        document = self.open(number=1)
        document.set("a", 1)
        document.set((), {"b": (1, 2), "c": range(3)})
        self.assertEqual(document.get(), {"b": [1, 2], "c": [0, 1, 2]})

    def test_nothing_stands_in_a_new_document(self) -> None:
        document = self.open(number=7)
        self.assertIsNone(document.get())
        self.assertEqual((document.keys(), document.items("l"), document.values("k")), ([], [], []))
        self.assertEqual((len(document), document.number, document.status()), (0, 7, Status(7, 0, 0)))
        self.assertTrue(document)

    def test_a_number_is_drawn(self) -> None:
        numbers = {self.open().number for _ in range(4)}
        self.assertEqual(len(numbers), 4)
        self.assertTrue(all(1 <= it <= 4294967295 for it in numbers))

    def test_a_number_is_an_int(self) -> None:
        number: Any
        for number in (True, "1", 1.0):
            with self.assertRaisesRegex(TypeError, f"a device's number is an int: {number!r}"):
                Document.open(number=number)

    def test_a_document_shows_its_number_and_its_length(self) -> None:
        document = self.open(number=7)
        document.set("l", [1])
        self.assertEqual(repr(document), "<jdoc.Document number 7: 2 operations>")
        document.close()
        self.assertEqual(repr(document), "<jdoc.Document number 7: the document is closed>")

    def test_what_no_document_holds_changes_nothing(self) -> None:
        document = self.open(number=1)
        value: Any
        for value in (1.5, 1.0, float("nan"), float("inf"), 2**63, -(2**63) - 1, 10**400, {"a": [1, {"b": 0.5}]}):
            with self.assertRaisesRegex(Refused, "E21 NotWhole"):
                document.set("k", value)
        for value in ("\ud800", {"a": "\udfff"}, {"\ud800": 1}, [1, ["\ud800"]]):
            with self.assertRaises(UnicodeEncodeError):
                document.set("k", value)
        for value in (b"bytes", bytearray(1), memoryview(b"m"), {1, 2}, {1: 2}, [object()]):
            with self.assertRaises(TypeError):
                document.set("k", value)
        with self.assertRaises(UnicodeEncodeError):
            document.get("\ud800")
        self.assertEqual((document.get(), len(document)), (None, 0))

    def test_a_request_that_is_too_long_is_not_sent(self) -> None:
        document = self.open(number=1)
        with self.assertRaisesRegex(ValueError, "33554432"):
            document.get("x" * 33_554_432)
        with self.assertRaisesRegex(ValueError, "33554432"):
            document.receive(b"x" * 33_554_432)
        document.set("k", 1)
        self.assertEqual(document.get(), {"k": 1})


class Lists(Case):
    def letters(self, number: int = 1) -> Document:
        document = self.open(number=number)
        document.set("l", ["a", "b", "c"])
        return document

    def test_positions_count_from_0_and_inserts_are_those_of_a_list(self) -> None:
        document, letters = self.letters(), ["a", "b", "c"]
        for position, value in ((0, "x"), (2, "y"), (5, "z")):
            document.insert("l", position, value)
            letters.insert(position, value)
            self.assertEqual(document.get("l"), letters)
        self.assertEqual([document.get("l", it) for it in range(6)], letters)
        document.set(("l", 1), "A")
        document.delete(("l", 0))
        document.insert_after(("l", 0), {"k": [1]})
        document.append("l", "end")
        self.assertEqual(document.get("l"), ["A", {"k": [1]}, "y", "b", "c", "z", "end"])

    def test_any_edits_are_those_of_a_list(self) -> None:
        document, letters, random = self.letters(), ["a", "b", "c"], Random(1)
        for value in range(150):
            at = random.randrange(len(letters) + 1)
            if at == len(letters):
                document.append("l", str(value))
                letters.append(str(value))
            elif (what := random.choice(["insert", "insert", "set", "delete"])) == "insert":
                document.insert("l", at, str(value))
                letters.insert(at, str(value))
            elif what == "set":
                document.set(("l", at), str(value))
                letters[at] = str(value)
            else:
                document.delete(("l", at))
                del letters[at]
            self.assertEqual(document.get("l") or [], letters)

    def test_an_append_makes_the_list(self) -> None:
        document = self.open(number=1)
        self.assertEqual(document.append(("a", "l"), 1), ItemId(1, 1))
        self.assertEqual(document.append(("a", "l"), 2), ItemId(2, 1))
        self.assertEqual(document.get(), {"a": {"l": [1, 2]}})

    def test_an_id_stays_where_its_item_is(self) -> None:
        document = self.letters()
        b = document.items("l")[1]
        document.insert("l", 0, "first")
        document.set(("l", b), "B")
        after = document.insert_after(("l", b), "after")
        self.assertEqual(document.get("l"), ["first", "a", "B", "after", "c"])
        self.assertEqual(document.items("l")[3], after)
        document.delete(["l", b])
        self.assertEqual(document.get("l"), ["first", "a", "after", "c"])
        document.set(("l", b), "again")
        self.assertEqual(document.get("l"), ["first", "a", "again", "after", "c"])

    def test_paths_are_joined(self) -> None:
        document = self.open(number=1)
        item = document.insert("l", 0, {"k": [5]})
        paths: list[Any] = [("l", 0, "k", 0), (("l", 0, "k", 0),), (["l", item], "k", 0), (("l",), (item, "k"), 0)]
        for path in paths:
            self.assertEqual(document.get(*path), 5)

    def test_other_steps_are_no_steps(self) -> None:
        document = self.letters()
        step: Any
        for step in (-1, ("l", -3)):
            with self.assertRaisesRegex(ValueError, "from the front"):
                document.get(step)
        with self.assertRaises(ValueError):
            document.insert("l", -1, "x")
        for step in (True, 1.0, None, b"k"):
            with self.assertRaises(TypeError):
                document.get("l", (step,))


class Conflicts(Case):
    def test_both_values_stand_until_one_is_set(self) -> None:
        one, other = self.open(number=1), self.open(number=2)
        one.set("k", "A")
        other.set("k", "B")
        one.sync(other)
        for document in (one, other):
            self.assertEqual(document.get(), {"k": {"?": "conflict", "values": ["A", "B"]}})
            self.assertEqual(document.values("k"), [(ItemId(1, 1), "A"), (ItemId(1, 2), "B")])
            self.assertEqual(document.conflicts("k"), [(ItemId(1, 1), "reg"), (ItemId(1, 2), "reg")])
        other.set("k", "C")
        other.sync(one)
        self.assertEqual((one.get(), other.get()), ({"k": "C"}, {"k": "C"}))

    def test_a_map_and_a_list_stand_together(self) -> None:
        document = self.open(number=1)
        document.set(("k", "a"), 1)
        document.insert("k", 0, 2)
        self.assertEqual(document.get("k"), {"?": "conflict", "map": {"a": 1}, "list": [2]})
        self.assertEqual([tag for _, tag in document.conflicts("k")], ["map", "list"])

    def test_what_is_cut_is_marked(self) -> None:
        document = self.open(number=1)
        document.set((), {"a": {"b": {"c": 1}}, "l": [1, 2, 3], "?": "mark"})
        self.assertEqual(document.get(depth=1), {"??": "mark", "a": {"?": "cut"}, "l": [{"?": "cut"}]})
        self.assertEqual(document.get("l", elements=3), [1, 2, {"?": "cut"}])
        self.assertEqual(document.get("l", elements=4), [1, 2, 3])


class Pages(Case):
    def test_their_code_runs(self) -> None:
        for page in ("clients/python/README.md", "docs/EMBEDDING.md"):
            text = (TOP / page).read_text(encoding="utf-8")
            code = text.split("```python\n")[1].split("```")[0]
            # A file that the code opens is in the test's folder.
            code = re.sub(r'"(\w+\.jdoc)"', lambda it: repr(str(self.folder / it[1])), code)
            with self.subTest(page):
                exec(compile(code, page, "exec"), {})


if __name__ == "__main__":
    unittest.main()
