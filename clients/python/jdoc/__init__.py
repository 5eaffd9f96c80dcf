"""A local-first JSON document: maps, lists and registers that several devices edit offline, and that agree once they meet.

`Document.open` starts the program `jdoc serve` and speaks with it over a pipe, or calls the library for C if `build_library` made it.
All that a document does is done there; this package turns calls into requests, and refusals into exceptions.
"""
from .document import Answer, BadLine, Document, Receipt, Status
from .errors import (
    REFUSALS, Damaged, Died, Gone, JdocError, Locked, Lost, NoProgram, NotFound, OtherProcess, Refused, Unsaved, WrongNumber
)
from .values import ItemId, Path, Scalar, Step, Value

__version__ = "0.1.0"

__all__ = [
    "Answer", "BadLine", "Damaged", "Died", "Document", "Gone", "ItemId", "JdocError", "Locked", "Lost", "NoProgram", "NotFound",
    "OtherProcess", "Path", "REFUSALS", "Receipt", "Refused", "Scalar", "Status", "Step", "Unsaved", "Value", "WrongNumber",
]
