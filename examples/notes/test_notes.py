"""Devices of the notes application, as their users see them."""
from __future__ import annotations

import fcntl
import re
import socket
import unittest

from devices import HERE, PATIENCE, Case
from jdoc import Document


class Devices(Case):
    def test_two_edit_offline_and_show_the_same_again(self) -> None:
        kitchen, phone = self.pair()
        kitchen.type("add Milk", "add Eggs")
        for it in (kitchen, phone):
            it.await_screen("  1 [ ] Milk", "  2 [ ] Eggs")
        kitchen.type("offline")
        for it, title in ((kitchen, "offline"), (phone, "online, 0 linked")):
            it.await_screen("  1 [ ] Milk", "  2 [ ] Eggs", title=title)
        kitchen.type("change 2 Six eggs", "add Bread", "done 1")
        kitchen.await_screen("  1 [x] Milk", "  2 [ ] Six eggs", "  3 [ ] Bread")
        phone.type("change 2 Ten eggs", "move 2 1", "add Ham")
        phone.await_screen("  1 [ ] Ten eggs", "  2 [ ] Milk", "  3 [ ] Ham")
        kitchen.type("online")
        conflict = ["  1 [ ] 2 texts were written apart, keep one:", "        a: Six eggs (device 1)", "        b: Ten eggs (device 2)"]
        for it in (kitchen, phone):
            it.await_screen(*conflict, "  2 [x] Milk", "  3 [ ] Ham", "  4 [ ] Bread", title="online, 1 linked")
        phone.type("keep 1 b")
        for it in (kitchen, phone):
            it.await_screen("  1 [ ] Ten eggs", "  2 [x] Milk", "  3 [ ] Ham", "  4 [ ] Bread")
        self.assertEqual((kitchen.screen, kitchen.end(), phone.end()), (phone.screen, 0, 0))
        again = self.device("kitchen")
        again.await_screen("  1 [ ] Ten eggs", "  2 [x] Milk", "  3 [ ] Ham", "  4 [ ] Bread", title="kitchen · device 1")

    def test_what_was_written_apart_from_a_delete_or_a_move_is_kept(self) -> None:
        kitchen, phone = self.pair()
        kitchen.type("add A", "add B", "add C", "add D")
        phone.await_screen("  1 [ ] A", "  2 [ ] B", "  3 [ ] C", "  4 [ ] D")
        phone.type("offline")
        phone.await_screen("  1 [ ] A", "  2 [ ] B", "  3 [ ] C", "  4 [ ] D", title="offline")
        phone.type("change 2 B, changed", "done 3", "done 1", "move 4 1")
        phone.await_screen("  1 [ ] D", "  2 [x] A", "  3 [ ] B, changed", "  4 [x] C")
        kitchen.type("delete 2", "delete 2", "change 2 D, changed", "done 1", "undo 1", "add E", "move 2 3")
        kitchen.await_screen("  1 [ ] A", "  2 [ ] E", "  3 [ ] D, changed")
        phone.type("online")
        for it in (kitchen, phone):
            # Of the two moves of D, the one with the greater id counts; C, of which only a tick is left, isn't shown.
            it.await_screen("  1 [?] A", "  2 [ ] B, changed", "  3 [ ] E", "  4 [ ] D, changed", title="online, 1 linked")
        phone.type("undo 1", "move 1 4")
        for it in (kitchen, phone):
            it.await_screen("  1 [ ] B, changed", "  2 [ ] E", "  3 [ ] D, changed", "  4 [ ] A")
        phone.type("move 3 1")
        for it in (kitchen, phone):
            it.await_screen("  1 [ ] D, changed", "  2 [ ] B, changed", "  3 [ ] E", "  4 [ ] A")
        phone.end()
        with Document.open(self.folder / "phone.notes") as document:
            self.assertEqual(len(document.items("order")), len({*document.get("order")}), "a place that was left stays")

    def test_a_third_one_hears_all_from_the_one_that_listens(self) -> None:
        kitchen, phone = self.pair()
        phone.type("add From the phone")
        laptop = self.device("laptop", "--number", "3", "--connect", f"localhost:{self.port}")
        laptop.await_screen("  1 [ ] From the phone", title="1 linked")
        laptop.type("done 1")
        for it in (kitchen, phone, laptop):
            it.await_screen("  1 [x] From the phone")
        self.assertIn("2 linked", kitchen.title)

    def test_the_walk_of_the_page_goes_as_it_says(self) -> None:
        page = (HERE / "README.md").read_text(encoding="utf-8")
        typed = re.findall(r"\*\*(kitchen|phone)\*\*(?:(?!```).)*```text\n(.*?)```", page, re.DOTALL)
        devices = dict(zip(("kitchen", "phone"), self.pair()))
        conflict = ["  2 [ ] 2 texts were written apart, keep one:", "        a: Six eggs (device 1)", "        b: Ten eggs (device 2)"]
        shown = [
            (["  1 [ ] Milk", "  2 [ ] Eggs"], ("kitchen", "phone")),
            (["  1 [ ] Milk", "  2 [ ] Six eggs", "  3 [ ] Bread"], ("kitchen",)),
            (["  1 [x] Milk", "  2 [ ] Ten eggs"], ("phone",)),
            (["  1 [x] Milk", *conflict, "  3 [ ] Bread"], ("kitchen", "phone")),
            (["  1 [x] Milk", "  2 [ ] Ten eggs", "  3 [ ] Bread"], ("kitchen", "phone")),
        ]
        self.assertEqual(len(typed), len(shown))
        for (name, lines), (screen, names) in zip(typed, shown):
            devices[name].type(*lines.splitlines())
            for it in names:
                devices[it].await_screen(*screen)

    def test_what_others_write_does_no_harm(self) -> None:
        with Document.open(self.folder / "phone.notes", number=2) as other:
            other.set(("notes", "a", "text"), "red\x1b[31m\n")
            other.set(("notes", "a", "done"), ["no tick"])
            other.set(("notes", "b"), "no note")
            other.set(("notes", "?"), {"text": 5})
            other.append("order", {"no": "key"})
            other.set(("order", "no"), "list")
        self.device("phone").await_screen("  1 [ ] 5", "  2 [ ] red?[31m?")

    def test_what_a_killed_device_showed_is_in_its_file(self) -> None:
        phone = self.device("phone")
        phone.type("add A")
        phone.await_screen("  1 [ ] A")
        phone.process.kill()
        phone.process.wait()
        with (self.folder / "phone.notes").open() as file:
            # Its program needs a moment to notice that its input has ended, and to close the file.
            fcntl.flock(file, fcntl.LOCK_EX)
        self.device("phone").await_screen("  1 [ ] A")

    def test_mistakes_are_shown_and_change_nothing(self) -> None:
        phone = self.device("phone")
        phone.type("add A")
        phone.await_screen("  1 [ ] A")
        for line, fault in (
            ("change 2 B", "no note has the number '2'"), ("done", "no note has the number ''"), ("move 1 0", "no note has the number '0'"),
            ("add", "a note has a text"), ("change 1", "a note has a text"), ("keep 1 b", "no text has the letter 'b'"),
            ("add " + "x" * 4097, "E7 TextTooLong: a text of more than 4,096 bytes"),
        ):
            phone.type(line)
            phone.await_screen("  1 [ ] A", f"! {fault}")
        phone.type("offline")
        phone.await_screen("  1 [ ] A", title="offline")

    def test_bytes_of_others_cut_the_link_alone(self) -> None:
        kitchen, phone = self.pair()
        cut = "! a link was cut, since the other side sent what no device does:"
        for data, fault in (
            (b"H\xff\xff\xff\xff", "no frame begins like this"),
            (b"H\0\0\0\1x", "E22 BadLine: a line or a value of another form"),
            (b"GET / HTTP/1.1\r\n\r\n", "no frame begins like this"),
        ):
            with socket.create_connection(("127.0.0.1", int(self.port))) as sock:
                sock.settimeout(PATIENCE)
                sock.sendall(data)
                kitchen.await_screen("    nothing yet", f"{cut} {fault}", title="1 linked")
        phone.type("add A")
        phone.await_screen("  1 [ ] A")
        kitchen.await_screen("  1 [ ] A", f"{cut} no frame begins like this")

    def test_an_old_copy_of_a_file_writes_no_more(self) -> None:
        kitchen, phone = self.pair()
        phone.type("add A")
        phone.await_screen("  1 [ ] A")
        old = (self.folder / "phone.notes").read_bytes()
        phone.type("add B")
        kitchen.await_screen("  1 [ ] A", "  2 [ ] B")
        phone.end()
        (self.folder / "phone.notes").write_bytes(old)
        phone = self.device("phone", "--connect", f"localhost:{self.port}")
        phone.await_screen("  1 [ ] A", "! not all was taken of what came from another device: E20 OwnName: "
                           "an operation of the own replica that isn't applied here")
        phone.type("add C")
        phone.await_screen("  1 [ ] A", "! this file is older than what other devices have of it: go on with a new one")


if __name__ == "__main__":
    unittest.main()
