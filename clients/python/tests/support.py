"""What the tests share: documents in a folder of their own, and an exchange over sockets."""
from __future__ import annotations

import os
import socket
import struct
import tempfile
import threading
import unittest
from concurrent.futures import ThreadPoolExecutor
from pathlib import Path
from typing import Any

from jdoc import Document

TOP = Path(__file__).resolve().parents[3]
# Without it the launcher runs what the repository has built.
os.environ.setdefault("JDOC", str(TOP / "jdoc"))


class Case(unittest.TestCase):
    """A test with a folder. Its documents are closed at its end."""

    def setUp(self) -> None:
        folder = tempfile.TemporaryDirectory()
        self.addCleanup(folder.cleanup)
        self.folder = Path(folder.name)

    def open(self, *words: Any, **options: Any) -> Document:
        document = Document.open(*words, **options)
        self.addCleanup(document.close)
        return document

    def apart(self, *calls: Any) -> list[threading.Thread]:
        """Runs each call in a thread. That all of them end is part of the test."""
        threads = [threading.Thread(target=it, daemon=True) for it in calls]
        for it in threads:
            it.start()
        return threads

    def join(self, threads: list[threading.Thread]) -> None:
        for it in threads:
            it.join(30)
            self.assertFalse(it.is_alive(), "a thread hangs")


def send(link: socket.socket, data: bytes) -> None:
    link.sendall(struct.pack(">I", len(data)) + data)


def read(link: socket.socket) -> bytes:
    with link.makefile("rb", buffering=0) as file:
        size = struct.unpack(">I", take(file, 4))[0]
        return take(file, size)


def take(file: Any, size: int) -> bytes:
    data = b""
    while len(data) < size:
        part = file.read(size - len(data))
        if not part:
            raise EOFError
        data += part
    return data


def exchange(document: Document, link: socket.socket) -> None:
    """One side of an exchange, until neither side has more."""
    more = True
    while more:
        send(link, document.hello())
        answer = document.answer(read(link))
        send(link, answer.lines)
        receipt = document.receive(read(link))
        assert receipt.stopped is None and receipt.refused == 0, receipt
        send(link, bytes([answer.more]))
        more = read(link) == b"\1" or answer.more


def meet(one: Document, other: Document) -> None:
    """Makes two documents exchange over a loopback socket, each in a thread."""
    with socket.create_server(("127.0.0.1", 0)) as server, ThreadPoolExecutor() as pool:
        with socket.create_connection(server.getsockname()) as near, server.accept()[0] as far:
            near.settimeout(30)
            far.settimeout(30)
            for side in [pool.submit(exchange, one, near), pool.submit(exchange, other, far)]:
                side.result()
