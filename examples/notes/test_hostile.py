"""Other sides of a link that do what no device does: the application goes on, and keeps little of it."""
from __future__ import annotations

import re
import resource
import socket
import unittest
from contextlib import ExitStack
from pathlib import Path

from devices import PATIENCE, Case, Device
from jdoc import Document

MOST_LINKS = 16
# More than a device may take for replies that nobody reads: each would have 300 kilobytes.
MOST_MEMORY = 64_000


def frame(kind: bytes, data: bytes = b"") -> bytes:
    return kind + len(data).to_bytes(4, "big") + data


EMPTY_HELLO = frame(b"H", b'["hello",[]]')


class Peer:
    """The other side of a link, byte by byte."""

    def __init__(self, port: str) -> None:
        self.sock = socket.create_connection(("127.0.0.1", int(port)), timeout=PATIENCE)
        self._file = self.sock.makefile("rb")

    def __enter__(self) -> Peer:
        return self

    def __exit__(self, *_: object) -> None:
        self._file.close()
        self.sock.close()

    def send(self, *frames: bytes) -> None:
        self.sock.sendall(b"".join(frames))

    def read(self) -> tuple[bytes, bytes]:
        """The next frame, or no kind at the end."""
        kind = self._file.read(1)
        return kind, self._file.read(int.from_bytes(self._file.read(4), "big"))


def memory_of(device: Device) -> int:
    """How many kilobytes the application has in memory."""
    status = Path(f"/proc/{device.process.pid}/status").read_text(encoding="ascii")
    found = re.search(r"VmRSS:\s+(\d+) kB", status)
    assert found
    return int(found[1])


class Hostile(Case):
    def filled(self, name: str, number: int, texts: int) -> None:
        """Makes a device's file, with so many texts of 4,000 bytes that aren't shown, and one note."""
        with Document.open(self.folder / f"{name}.notes", number=number) as document:
            for it in range(texts):
                document.set(("long", f"{number}.{it}"), "x" * 4000)
            document.set(("notes", f"{number}.0", "text"), f"of {name}")

    @unittest.skipUnless(Path("/proc/self/status").exists(), "the system doesn't say how much memory a process has")
    def test_hellos_whose_answers_nobody_reads_take_no_memory(self) -> None:
        self.filled("kitchen", 1, 75)
        kitchen, phone = self.pair("  1 [ ] of kitchen")
        before = memory_of(kitchen)
        with Peer(self.port) as peer:
            peer.send(EMPTY_HELLO * 2000)
            phone.type("add A")
            kitchen.await_line("  1 [ ] A")
            kitchen.type("add B")
            phone.await_line("  2 [ ] B")
            self.assertLess(memory_of(kitchen) - before, MOST_MEMORY)
        kitchen.await_that(lambda: "1 linked" in kitchen.title, "the end of the link")

    def test_a_thousand_links_leave_those_that_speak(self) -> None:
        soft, hard = resource.getrlimit(resource.RLIMIT_NOFILE)
        wanted = 1100
        if hard != resource.RLIM_INFINITY and hard < wanted + 50:
            self.skipTest("this process can't have so many descriptors")
        self.addCleanup(resource.setrlimit, resource.RLIMIT_NOFILE, (soft, hard))
        resource.setrlimit(resource.RLIMIT_NOFILE, (max(soft, wanted + 50), hard))
        kitchen, phone = self.pair()
        with ExitStack() as stack:
            for _ in range(wanted):
                stack.enter_context(socket.create_connection(("127.0.0.1", int(self.port)), timeout=PATIENCE))
            phone.type("add A")
            kitchen.await_screen("  1 [ ] A", title=f"{MOST_LINKS} linked")
            # A device that says something finds a place, as long as others say nothing.
            laptop = self.device("laptop", "--number", "3", "--connect", f"localhost:{self.port}")
            laptop.await_line("  1 [ ] A")
        kitchen.await_screen("  1 [ ] A", title="2 linked")

    def test_no_more_links_than_there_may_be(self) -> None:
        kitchen = self.device("kitchen", "--number", "1", "--listen", self.port)
        kitchen.await_screen("    nothing yet")
        with ExitStack() as stack:
            for _ in range(MOST_LINKS):
                peer = stack.enter_context(Peer(self.port))
                peer.send(EMPTY_HELLO)
                self.assertEqual([peer.read()[0] for _ in range(2)], [b"H", b"B"])
            refused = stack.enter_context(Peer(self.port))
            self.assertEqual(refused.read()[0], b"")
            kitchen.await_screen("    nothing yet", f"! a link was refused: there are {MOST_LINKS} already", title=f"{MOST_LINKS} linked")

    def test_a_device_without_descriptors_goes_on(self) -> None:
        kitchen = self.device("kitchen", "--number", "1", "--listen", self.port, before=["sh", "-c", 'ulimit -n 14; exec "$0" "$@"'])
        kitchen.await_screen("    nothing yet")
        with ExitStack() as stack:
            for _ in range(MOST_LINKS):
                stack.enter_context(socket.create_connection(("127.0.0.1", int(self.port)), timeout=PATIENCE))
            kitchen.await_line("! no link can be taken up: Too many open files")
            kitchen.type("add A")
            kitchen.await_line("  1 [ ] A")
        phone = self.device("phone", "--number", "2", "--connect", f"localhost:{self.port}")
        phone.await_line("  1 [ ] A")

    def test_three_hundred_numbers_fill_the_table_and_no_more(self) -> None:
        kitchen, phone = self.pair()
        phone.type("add A")
        kitchen.await_line("  1 [ ] A")
        lines = "".join(f'["op",[1,{it}],[],[["m",0]],"k",["a",1]]\n' for it in range(1001, 1301)).encode()
        with Peer(self.port) as peer:
            self.assertEqual(peer.read()[0], b"H")
            peer.send(frame(b"B", lines))
            kitchen.await_line("! 256 devices have written this list, and it can have no more: nothing further is taken over that link")
            # What it has is told to others, but it isn't asked for more.
            kinds = []
            peer.send(frame(b"N"), EMPTY_HELLO)
            while not kinds or kinds[-1] != b"B":
                kinds.append(peer.read()[0])
            self.assertNotIn(b"H", kinds)
            phone.type("add B")
            kitchen.await_line("  2 [ ] B")
            kitchen.type("add C")
            phone.await_line("  3 [ ] C")

    def test_a_bundle_that_nobody_asked_for_cuts_the_link(self) -> None:
        kitchen = self.device("kitchen", "--number", "1", "--listen", self.port)
        kitchen.await_screen("    nothing yet")
        with Peer(self.port) as peer:
            self.assertEqual(peer.read()[0], b"H")
            peer.send(frame(b"B") * 2)
            self.assertEqual(peer.read()[0], b"")
        cut = "! a link was cut, since the other side sent what no device does: a bundle that nobody asked for"
        kitchen.await_screen("    nothing yet", cut, title="0 linked")

    def test_two_that_have_much_for_each_other_both_get_it(self) -> None:
        # More than a bundle, and far more than the sockets between them hold.
        self.filled("kitchen", 1, 1100)
        self.filled("phone", 2, 1100)
        kitchen = self.device("kitchen", "--listen", self.port)
        phone = self.device("phone", "--connect", f"localhost:{self.port}")
        for it in (kitchen, phone):
            it.await_screen("  1 [ ] of kitchen", "  2 [ ] of phone", title="1 linked")


if __name__ == "__main__":
    unittest.main()
