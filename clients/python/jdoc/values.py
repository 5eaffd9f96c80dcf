"""What a document holds, and where: values, and the steps that lead to them."""
from __future__ import annotations

import os
from typing import Dict, List, Mapping, NamedTuple, Sequence, Tuple, Union

from .errors import Refused


class ItemId(NamedTuple):
    """The id of an operation. That of an insert is the id of its item for good, wherever the item's position moves."""

    counter: int
    replica: int


Step = Union[str, int, ItemId]
"""A key of a map, a position in a list, counted from 0, or the id of an item of a list."""
Path = Union[Step, Sequence[Step]]
"""Steps from the root. Where a call takes `*path`, its parts are joined: `get("a", 0)`, `get(("a", 0))` and `get(("a",), 0)` are one."""
Scalar = Union[None, bool, int, str]
Value = Union[Scalar, Sequence["Value"], Mapping[str, "Value"]]
Words = Union[str, "os.PathLike[str]", Sequence[str]]
# A value as it is written: of the types of JSON alone.
Plain = Union[Scalar, List["Plain"], Dict[str, "Plain"]]
# The way from a value to one of its parts, by keys and positions.
Part = Tuple[Union[str, int], ...]

# The limits of a document (docs/RULES.md, 'Limits'): keys in a path, and bytes of a key and of a text in UTF-8.
MOST_DEPTH = 32
MOST_KEY = 256
MOST_TEXT = 4096


def expression(*path: Path) -> List[object]:
    """The steps of these paths, one after another, as the protocol writes them."""
    steps = (step for part in path for step in ((part,) if isinstance(part, (str, int, ItemId)) else part))
    return [step if isinstance(step, (str, ItemId)) else from_one(step) for step in steps]


def from_one(position: int) -> int:
    """A position as the protocol counts it: from 1, since 0 is the head of a list, after which its first item is inserted."""
    if isinstance(position, bool) or not isinstance(position, int):
        raise TypeError(f"not a position: {position!r}")
    if position < 0:
        raise ValueError(f"positions count from the front of a list: {position}")
    return position + 1


def checked(value: Value, depth: int, part: Part = ()) -> Plain:
    """The value as a document holds it, at an element so many steps from the root; it is a copy, so that what was checked is what is
    written. `part` is the way to it from the value that the caller gave.

    Raises `Refused` with the part that exceeds a limit, `TypeError` for what isn't a value, and `UnicodeEncodeError` for a text with half a
    surrogate pair.
    """
    if value is None or isinstance(value, bool):
        return value
    if isinstance(value, str):
        if _size(value, part) > MOST_TEXT:
            raise Refused("E7", part)
        return value
    if isinstance(value, (int, float)):
        if isinstance(value, float) or not -(2**63) <= value < 2**63:
            raise Refused("E21", part)
        return value
    if isinstance(value, Mapping):
        return {_checked_key(key, part): checked(it, _below(depth, (*part, key)), (*part, key)) for key, it in value.items()}
    if isinstance(value, Sequence) and not isinstance(value, (bytes, bytearray, memoryview)):
        return [checked(it, _below(depth, (*part, at)), (*part, at)) for at, it in enumerate(value)]
    raise TypeError(f"not a value of a document: {value!r}{_where(part)}")


def _where(part: Part) -> str:
    """Where in the caller's value this part is."""
    return f", in the value at {list(part)!r}" if part else ""


def _below(depth: int, part: Part) -> int:
    """The depth of this part of a map or a list of this depth."""
    if depth >= MOST_DEPTH:
        raise Refused("E5", part)
    return depth + 1


def _checked_key(key: object, part: Part) -> str:
    if not isinstance(key, str):
        raise TypeError(f"not a key: {key!r}{_where(part)}")
    if _size(key, (*part, key)) > MOST_KEY:
        raise Refused("E6", (*part, key))
    return key


def _size(text: str, part: Part) -> int:
    """How many bytes the text has in UTF-8."""
    try:
        return len(text.encode())
    except UnicodeEncodeError as fault:
        fault.reason += _where(part)
        raise
