"""Documents that edit concurrently, and meet."""
from __future__ import annotations

import unittest
from random import Random

from jdoc import BadLine, ItemId, Receipt, Refused
from support import Case, meet


class Meetings(Case):
    def test_two_that_edit_apart_meet_over_a_socket(self) -> None:
        one, other = self.open(self.folder / "one"), self.open(number=2)
        one.set("list", ["eggs", "milk"])
        meet(one, other)
        self.assertEqual(other.get(), {"list": ["eggs", "milk"]})
        eggs = one.items("list")[0]
        one.delete(("list", eggs))
        one.append("list", "ham")
        other.set(("list", eggs), "six eggs")
        other.insert("list", 0, "bread")
        one.set("title", "ours")
        other.set("title", "yours")
        self.assertNotEqual(one.get(), other.get())
        meet(one, other)
        self.assertEqual(one.get()["list"], ["bread", "six eggs", "milk", "ham"])
        self.assertEqual({value for _, value in one.values("title")}, {"ours", "yours"})
        self.assertEqual(one.to_json(), other.to_json())
        self.assertEqual(one.hello(), other.hello())

    def test_all_that_is_lacked_comes_by_third_ones(self) -> None:
        documents = [self.open(number=it) for it in (1, 2, 3)]
        for it in documents:
            it.set(f"by {it.number}", it.number)
        documents[0].sync(documents[1])
        documents[1].sync(documents[2])
        documents[2].sync(documents[0])
        for it in documents:
            self.assertEqual(it.get(), {"by 1": 1, "by 2": 2, "by 3": 3})

    def test_any_edits_and_exchanges_end_alike(self) -> None:
        documents, random = [self.open(number=it) for it in (1, 2, 3)], Random(1)
        for value in range(200):
            document, other = random.sample(documents, 2)
            items = document.items("l")
            what = random.choice(["set", "insert", "set item", "delete item", "clear", "exchange"])
            if what == "set":
                document.set(("m", random.choice("ab")), random.choice([value, [value], {"k": value}]))
            elif what == "insert" or not items:
                document.insert("l", random.randint(0, len(items)), value)
            elif what == "set item":
                document.set(("l", random.choice(items)), value)
            elif what == "delete item":
                document.delete(("l", random.choice(items)))
            elif what == "clear" and value % 8 == 0:
                document.delete("m")
            else:
                # In one direction alone, and sometimes only a part of what is missing: the first lines of a bundle are a bundle.
                lines = document.answer(other.hello()).lines.splitlines(keepends=True)
                other.receive(b"".join(lines[: random.randint(0, len(lines))]))
        for it in (0, 1, 2, 0, 1):
            documents[it].sync(documents[(it + 1) % 3])
        self.assertEqual(len({it.to_json() for it in documents}), 1)
        self.assertEqual(len({it.hello() for it in documents}), 1)
        self.assertEqual(len({str(it.conflicts()) for it in documents}), 1)

    def test_what_is_too_much_for_one_bundle_comes_in_several(self) -> None:
        one, other = self.open(number=1), self.open(number=2)
        # Of 4096 bytes each: a bundle has 4194304 bytes, and no room for 1024 of them.
        texts = [f"{it:04}" * 1024 for it in range(1024)]
        one.set("texts", texts)
        self.assertTrue(one.answer(other.hello()).more)
        other.sync(one)
        self.assertEqual(other.get("texts"), texts)


class Bytes(Case):
    def test_lines_are_those_of_the_wire(self) -> None:
        one, other = self.open(number=1), self.open(number=2)
        self.assertEqual(one.hello(), b'["hello",[]]\n')
        one.set("k", "é")
        self.assertEqual(one.hello(), b'["hello",[[1,1]]]\n')
        answer = one.answer(other.hello().rstrip())
        self.assertEqual((answer.lines.count(b"\n"), answer.more, answer.beyond), (1, False, False))
        self.assertEqual(other.receive(answer.lines), Receipt(1, 0, None, None))
        self.assertEqual(other.receive(answer.lines), Receipt(1, 0, None, None))
        self.assertEqual(other.receive(b""), Receipt(0, 0, None, None))
        self.assertEqual(one.answer(other.hello()).lines, b"")
        self.assertEqual(other.values("k"), [(ItemId(1, 1), "é")])

    def test_what_is_no_text_stops_a_receipt_at_its_line(self) -> None:
        document = self.open(number=1)
        good = b'["op",[1,2],[],[["m",0]],"k",["a",1]]\n'
        for bad in (b"\xff\n", b'["op",[2,2],[[2,1]],[["m",0]],"k",["a","\xc3"]]\n', b"\xed\xa0\x80\n"):
            self.assertEqual(document.receive(good + bad + good), Receipt(1, 0, None, BadLine(2, "E22")))
        self.assertEqual(document.receive(b"no line\n\xff\n").stopped, BadLine(1, "E22"))
        self.assertEqual(document.receive(good[:-1]).stopped, BadLine(1, "E22"))
        self.assertEqual(document.get(), {"k": 1})

    def test_a_bad_hello_is_refused(self) -> None:
        document = self.open(number=1)
        for hello in (b"", b"hello", b"\xff", b'["hello"]', b'["hello",[[2,1],[1,1]]]', b'["hello",[]]\n["hello",[]]\n', b"\0"):
            with self.assertRaisesRegex(Refused, "E22 BadLine"):
                document.answer(hello)
        self.assertEqual(document.answer(b'["hello",[[1,5]]]').beyond, True)

    def test_documents_of_one_number_do_not_meet(self) -> None:
        one, other = self.open(number=1), self.open(number=1)
        one.set("k", 1)
        with self.assertRaisesRegex(Refused, "E20 OwnName"):
            one.sync(other)


if __name__ == "__main__":
    unittest.main()
