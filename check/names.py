#!/usr/bin/env python3
"""Usage: check/names.py [--list]

A name of a definition has one owner: no two crates define it, so that a reader who meets it knows which one is meant. Some
names were in two crates before that rule, and check/names.txt lists them with their crates; the list may only get shorter.
Prints each name that is in two crates and not listed so, and each line of the list that is no longer true; --list prints the
list as it is now. The status is 0 if there is neither."""

import pathlib
import re
import sys

TOP = pathlib.Path(__file__).resolve().parent.parent
DEFINED = re.compile(r"^(?:abbrev |unfoldable )*pub (?:abbrev |unfoldable )*(?:record |data )?(?!mod\b)([^\s:(]+)", re.M)


def doubled():
    """The names that two crates define or more, with the crates."""
    owners = {}
    for path in sorted(TOP.glob("crates/*/specs/*.antt")):
        for name in DEFINED.findall(path.read_text(encoding="utf-8")):
            owners.setdefault(name, set()).add(path.parent.parent.name)
    return {f"{name}: {' '.join(sorted(crates))}" for name, crates in owners.items() if len(crates) > 1}


def main():
    now = doubled()
    if sys.argv[1:] == ["--list"]:
        print("\n".join(sorted(now)))
        return 0
    if sys.argv[1:]:
        print(__doc__)
        return 0 if sys.argv[1:] == ["--help"] else 2
    known = set((TOP / "check/names.txt").read_text(encoding="utf-8").splitlines())
    for line in sorted(now - known):
        print(f"a name with two owners: {line}")
    for line in sorted(known - now):
        print(f"no longer so, to be taken from check/names.txt: {line}")
    print(f"names: {len(now)} with two owners, {len(now ^ known)} to look at")
    return 1 if now != known else 0


sys.exit(main())
