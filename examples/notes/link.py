"""Links to other devices: what goes over their sockets, and when.

A frame is a byte that says what it is, four bytes with the length of its data, and the data. Each side says HELLO when a link comes up,
and after each NEWS, but not before its last one was answered. A HELLO is answered with a bundle of what its sender lacks, and a side with
something new says NEWS to all others.

Whatever the other side sends, a link keeps no more than a frame in either direction, and is served a few frames at a time.
"""
import selectors
import socket
import time
from contextlib import suppress
from itertools import islice
from typing import Iterator, Optional

from jdoc import Document, Refused, Unsaved

Address = tuple[str, int]
HELLO, BUNDLE, FULL_BUNDLE, NEWS = b"H", b"B", b"F", b"N"
# The most data of each kind: no device has a longer hello (docs/EMBEDDING.md, 'Exchange') or bundle. A full bundle isn't the last one.
MOST = {HELLO: 8_500, BUNDLE: 4_194_304, FULL_BUNDLE: 4_194_304, NEWS: 0}
# How many links there may be, and how many frames of one are served before anything else is.
MOST_LINKS = 16
FRAMES_A_TURN = 4
# How long nothing is accepted after the system refused to, in seconds.
REST = 1.0
TABLE_IS_FULL = "256 devices have written this list, and it can have no more: nothing further is taken over that link"


class Link:
    """A socket that never waits: what can't be sent yet is kept, and what is read is cut into frames. It also has what is due to the other
    side: all of it is sent one frame after the other, so only one ever waits."""

    def __init__(self, sock: socket.socket) -> None:
        sock.setblocking(False)
        self.sock = sock
        self._unread = bytearray()
        self._unsent = bytearray()
        # Whether we have to say hello, whether one of ours isn't answered yet, and the one of theirs that isn't.
        self.must_ask, self.is_asking = True, False
        self.asked: Optional[bytes] = None
        self.has_news = False
        # Whether a frame came, and whether we take no more bundles.
        self.has_spoken = self.is_refused = False

    def send(self, kind: bytes, data: bytes = b"") -> None:
        self._unsent += kind + len(data).to_bytes(4, "big") + data

    def flush(self) -> bool:
        """Sends as much as the socket takes. Returns whether all is sent."""
        with suppress(BlockingIOError):
            while self._unsent:
                del self._unsent[: self.sock.send(self._unsent)]
        return not self._unsent

    def read(self) -> None:
        """Reads what is there, unless a frame waits to be served. Raises EOFError at the end."""
        if not self.end_of_frame():
            data = self.sock.recv(1 << 20)
            if not data:
                raise EOFError
            self._unread += data

    def end_of_frame(self) -> int:
        """Where the first frame ends that was read, or 0 if none is whole. Raises ValueError for what we never send."""
        if len(self._unread) < 5:
            return 0
        kind, end = bytes(self._unread[:1]), 5 + int.from_bytes(self._unread[1:5], "big")
        if end > 5 + MOST.get(kind, -1):
            raise ValueError("no frame begins like this")
        return end if len(self._unread) >= end else 0

    def frames(self) -> Iterator[tuple[bytes, bytes]]:
        """Takes out the frames that were read and are whole."""
        while end := self.end_of_frame():
            frame = bytes(self._unread[:1]), bytes(self._unread[5:end])
            del self._unread[:end]
            yield frame


class Links:
    """The links of a document. `fault` is what went wrong last. If `is_behind`, another device knows operations of this one that
    aren't here: its file was restored from an old copy."""

    def __init__(self, document: Document, listen: Optional[Address], connect: Optional[Address]) -> None:
        # Unlike that of `select`, its descriptors may have any number; unlike that of `epoll`, it takes a file as standard input.
        self.selector = selectors.PollSelector()
        self.links: list[Link] = []
        self.is_online = self.is_behind = False
        self.fault = ""
        self._document, self._listen, self._connect = document, listen, connect
        # The link that was connected from here, where we listen, and when we accept again.
        self._own: Optional[Link] = None
        self._server: Optional[socket.socket] = None
        self._rests_until = 0.0

    def go_online(self) -> None:
        if self._listen and not self._server:
            self._server = socket.create_server(self._listen)
            self._server.setblocking(False)
            self.selector.register(self._server, selectors.EVENT_READ, self._accept)
        self.is_online = True

    def go_offline(self) -> None:
        self.is_online = False
        for link in [*self.links]:
            self._drop(link)
        if self._server:
            if self._server in self.selector.get_map():
                self.selector.unregister(self._server)
            self._server.close()
            self._server = None

    def seek(self) -> bool:
        """Connects if a link is wanted and there is none, and accepts again after a rest. Returns whether to try again in a while."""
        if not self.is_online:
            return False
        is_resting = self._server is not None and self._server not in self.selector.get_map()
        if self._server and is_resting and time.monotonic() >= self._rests_until:
            self.selector.register(self._server, selectors.EVENT_READ, self._accept)
            is_resting = False
        if self._connect and self._own not in self.links:
            try:
                self._own = self._open(socket.create_connection(self._connect, timeout=0.5))
            except OSError:
                return True
        return is_resting

    def tell_news(self, but: Optional[Link] = None) -> None:
        """Tells the others that there is something new."""
        for link in [it for it in self.links if it is not but]:
            link.has_news = True
            self._wake(link)

    def has_frames(self) -> bool:
        """Whether frames that were read wait to be served."""
        return any(self._waits(it) for it in self.links)

    def go_on(self) -> None:
        """Serves a few of the frames that wait on each link."""
        for link in [it for it in self.links if self._waits(it)]:
            self._serve(link, 0)

    def _waits(self, link: Link) -> bool:
        try:
            return link.end_of_frame() > 0
        except ValueError:
            return True

    def _accept(self, _: int) -> None:
        """Takes up the links that others want, as many as there may be at once."""
        assert self._server
        try:
            for _ in range(MOST_LINKS):
                self._admit(self._server.accept()[0])
        except BlockingIOError:
            return
        except OSError as fault:
            self.fault = f"no link can be taken up: {fault.strerror}"
            self.selector.unregister(self._server)
            self._rests_until = time.monotonic() + REST

    def _admit(self, sock: socket.socket) -> None:
        """Takes up a link. If there are too many, one that has said nothing yet makes room, or else it is refused."""
        if len(self.links) >= MOST_LINKS:
            mute = next((it for it in self.links if not it.has_spoken), None)
            if not mute:
                sock.close()
                self.fault = f"a link was refused: there are {MOST_LINKS} already"
                return
            self._drop(mute)
        self._open(sock)

    def _open(self, sock: socket.socket) -> Link:
        link = Link(sock)
        self.links.append(link)
        self.selector.register(sock, selectors.EVENT_READ | selectors.EVENT_WRITE, lambda events: self._serve(link, events))
        return link

    def _drop(self, link: Link) -> None:
        self.links.remove(link)
        self.selector.unregister(link.sock)
        link.sock.close()

    def _wake(self, link: Link) -> None:
        """Serves the link as soon as its socket takes something."""
        self.selector.modify(link.sock, selectors.EVENT_READ | selectors.EVENT_WRITE, self.selector.get_key(link.sock).data)

    def _serve(self, link: Link, events: int) -> None:
        """Reads and sends what can be, and drops a link that ended."""
        # An event handled before this one may have dropped the link.
        if link not in self.links:
            return
        try:
            if events & selectors.EVENT_READ:
                link.read()
            for kind, data in islice(link.frames(), FRAMES_A_TURN):
                link.has_spoken = True
                self._take(link, kind, data)
            self._send_due(link)
        except (EOFError, OSError):
            self._drop(link)
        except (ValueError, Refused) as fault:
            self._drop(link)
            self.fault = f"a link was cut, since the other side sent what no device does: {fault}"

    def _take(self, link: Link, kind: bytes, data: bytes) -> None:
        """Notes what a frame asks for, and takes what it brings."""
        if kind == NEWS:
            link.must_ask = not link.is_refused
        elif kind == HELLO:
            # A device doesn't say a second one before it has the answer; should one come, it stands for both.
            link.asked = data
        elif not link.is_asking:
            raise ValueError("a bundle that nobody asked for")
        else:
            link.is_asking = False
            if data:
                self._receive(link, kind, data)

    def _receive(self, link: Link, kind: bytes, data: bytes) -> None:
        try:
            receipt = self._document.receive(data)
            bad = receipt.stopped or receipt.first_refused
            if bad and bad.code == "E13":
                # The same would come again each time, and nothing that depends on it could be taken.
                link.is_refused, self.fault = True, TABLE_IS_FULL
            elif bad:
                self.fault = f"not all was taken of what came from another device: {Refused(bad.code)}"
            elif kind == FULL_BUNDLE:
                link.must_ask = True
        except Unsaved as fault:
            self.fault = str(fault)
        self.tell_news(but=link)

    def _send_due(self, link: Link) -> None:
        """Sends what is due, each frame once the one before it is sent, so that no more than one waits."""
        while link.flush():
            if link.must_ask and not link.is_asking:
                link.must_ask, link.is_asking = False, True
                link.send(HELLO, self._document.hello())
            elif link.asked is not None:
                asked, link.asked = link.asked, None
                self._answer(link, asked)
            elif link.has_news:
                link.has_news = False
                link.send(NEWS)
            else:
                self.selector.modify(link.sock, selectors.EVENT_READ, self.selector.get_key(link.sock).data)
                return
        self._wake(link)

    def _answer(self, link: Link, hello: bytes) -> None:
        try:
            answer = self._document.answer(hello)
            self.is_behind = self.is_behind or answer.beyond
            link.send(FULL_BUNDLE if answer.more else BUNDLE, answer.lines)
        except Unsaved as fault:
            # What isn't saved isn't sent. Once it is, there is news.
            self.fault = str(fault)
            link.send(BUNDLE)
