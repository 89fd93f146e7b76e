#!/usr/bin/env python3
"""Usage: check/edits.py [CRATE..]

Checks each edit in crates/NAME/must-fail/ and crates/NAME/planted/, of all crates if none is named: that it has one
line `file:` with a file that is there, and then pairs of lines `old:` and `new:`, and that each old text stands
exactly once in that file, with the pairs applied in order. Prints the faulty edits, and then how many were read. The
status is 0 where none is faulty."""

import pathlib
import sys

TOP = pathlib.Path(__file__).resolve().parent.parent


def fault_of(crate, edit):
    """What is wrong with an edit, or None."""
    name, text, old, pairs = None, None, None, 0
    for line in edit.read_text(encoding="utf-8").splitlines():
        key, _, value = line.partition(": ")
        if key == "file":
            name = value.strip()
            path = crate / name
            if not path.is_file():
                return f"no file {name}"
            text = path.read_text(encoding="utf-8")
        elif key == "old":
            if old is not None:
                return f"two lines old: {old}"
            if text is None:
                return "old: before file:"
            if text.count(value) != 1:
                return f"stands {text.count(value)} times in {name}: {value}"
            old = value
        elif key in ("new", "new:"):
            if old is None:
                return f"new: without old: {value}"
            if value == old:
                return f"changes nothing: {old}"
            text, old, pairs = text.replace(old, value), None, pairs + 1
    if name is None:
        return "no line file:"
    if old is not None:
        return f"old: without new: {old}"
    return None if pairs else "no pair"


def main():
    if "--help" in sys.argv:
        print(__doc__)
        return 0
    there = sorted(path.name for path in (TOP / "crates").iterdir() if path.is_dir())
    for name in set(sys.argv[1:]) - set(there):
        print(f"there is no crate {name}", file=sys.stderr)
        return 2
    names = sys.argv[1:] or there
    count, faulty = 0, 0
    for name in names:
        crate = TOP / "crates" / name
        for edit in sorted([*crate.glob("must-fail/*.edit"), *crate.glob("planted/*.edit")]):
            fault = fault_of(crate, edit)
            count += 1
            if fault:
                faulty += 1
                print(f"{edit.relative_to(TOP)}: {fault}")
    print(f"edits: {count} read, {faulty} faulty")
    return 1 if faulty else 0


sys.exit(main())
