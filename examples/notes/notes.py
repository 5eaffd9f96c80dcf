"""The notes in a document: what they are made of, and each thing that can be done to them.

At `notes` is a map with a map for each note, under a key that its device made up: `text`, and `done` once it was ticked. At `order` is a
list of these keys. So a write goes to the note itself, wherever it was moved, and a move loses nothing that was written concurrently.
"""
from typing import NamedTuple, Optional

from jdoc import Document, ItemId


class Note(NamedTuple):
    """A note. `texts` are its texts, each with the number of the device that wrote it; of several concurrent ones, one is to be kept.
    `done` is None if devices disagree. `places` are the items of `order` that have its key, the last of which counts: two devices may
    have moved it concurrently."""

    key: str
    texts: list[tuple[str, int]]
    done: Optional[bool]
    places: list[ItemId]


class Notes:
    """The notes of a document."""

    def __init__(self, document: Document) -> None:
        self._document = document

    def all(self) -> list[Note]:
        """The notes in their order. A note without a text isn't shown: one device deleted it, and another ticked it."""
        ids, keys = self._document.items("order"), self._document.get("order")
        found = []
        for key in self._document.keys("notes"):
            texts = [(str(text), it.replica) for it, text in self._document.values("notes", key, "text")]
            ticks = {value for _, value in self._document.values("notes", key, "done")}
            places = sorted(place for place, at in zip(ids, keys if isinstance(keys, list) else []) if at == key)
            if texts:
                found.append(Note(key, texts, None if len(ticks) > 1 else True in ticks, places))
        # One without a place was being added when the power went.
        return sorted(found, key=lambda it: (ids.index(it.places[-1]) if it.places else len(ids), it.key))

    def add(self, text: str) -> None:
        """Adds a note at the end."""
        # No two notes of a device are added at the same length of its history, and no other device has its number.
        key = f"{self._document.number}.{len(self._document)}"
        self._document.set(("notes", key, "text"), text)
        self._document.append("order", key)

    def change(self, note: Note, text: str) -> None:
        """Overwrites the text, or all of them."""
        self._document.set(("notes", note.key, "text"), text)

    def tick(self, note: Note, done: bool) -> None:
        """Ticks the note off, or unticks it."""
        self._document.set(("notes", note.key, "done"), done)

    def delete(self, note: Note) -> None:
        """Deletes the note. Its place stays: a text that another device writes concurrently brings it back where it was."""
        self._document.delete(("notes", note.key))

    def move(self, note: Note, behind: Optional[Note]) -> None:
        """Moves the note after another one, or to the front."""
        if behind and behind.places:
            self._document.insert_after(("order", behind.places[-1]), note.key)
        else:
            self._document.insert("order", 0, note.key)
        for place in note.places:
            self._document.delete(("order", place))
