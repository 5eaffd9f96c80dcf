#!/usr/bin/env python3
"""Tests that each wrong edit can be applied: its file exists, and each text to be replaced is in it exactly once. Those of a folder `wrong`
must say besides which functions they change.

`rt ci` only notes an edit that it can't apply, so a bug would lose its edit silently. Says how many can't be applied,
and fails if any can't.
"""
import pathlib
import sys

TOP = pathlib.Path(__file__).resolve().parent.parent
sys.path.insert(0, str(TOP / "tools"))
sys.dont_write_bytecode = True
from wrong_edits import BadEdit, Edit, Texts  # noqa: E402


def fault_of(file):
    """Why the edit can't be applied, or None."""
    crate = file.parent.parent
    edit = Edit.read(crate.name, file)
    try:
        _, places = edit.applied(Texts(crate))
        if file.parent.name == "wrong":
            edit.changes(crate, places)
    except BadEdit as error:
        return error
    return None if places else "it changes nothing"


def main():
    edits = [it for folder in ("must-fail", "wrong") for it in sorted(TOP.glob(f"crates/*/{folder}/*.edit"))]
    faults = [(edit, why) for edit in edits if (why := fault_of(edit))]
    for edit, why in faults:
        print(f"edits: FAILED: {edit.relative_to(TOP)}: {why}")
    print(f"edits: {len(edits)} wrong edits, {len(faults)} that can't be applied")
    sys.exit(1 if faults else 0)


main()
