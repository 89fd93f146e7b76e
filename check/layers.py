#!/usr/bin/env python3
"""Usage: check/layers.py [--write]

Reads the layers of crates.txt: its heads, lowest first, each with its crates. A crate may stand only on crates that come
before it. The picture of the layers, highest first, is between the lines `<!-- layers -->` and `<!-- end -->` of each page
that has these; with --write it is put there. The status is 0 if each line and each picture is as it should be."""

import pathlib
import sys

from reference import TOP, layers

# Crates that are there for checks and measurements alone.
LEFT_OUT = ("Proved callers", "Rows of values", "Programs that are measured")
WIDTH = 44


def faulty_order():
    known = {name for _, listed in layers() for name in listed}
    seen = set()
    for head, listed in layers():
        for name, below in listed.items():
            for other in below:
                if other in known and other not in seen:
                    yield f"crates.txt: {name} stands on {other}, which comes after it"
            seen.add(name)
    for folder in sorted((TOP / "crates").iterdir()):
        if folder.is_dir() and any(folder.glob("src/*.rt")) and folder.name not in known:
            yield f"crates.txt: no layer has {folder.name}"


def picture():
    """A line or more for each layer, highest first: its crates, and what it is."""
    lines = []
    for head, listed in reversed(layers()):
        if head.startswith(LEFT_OUT):
            continue
        rows = [""]
        for name in listed:
            if rows[-1] and len(rows[-1]) + len(name) + 1 > WIDTH:
                rows.append("")
            rows[-1] = f"{rows[-1]} {name}".strip()
        lines += [f"{row:{WIDTH}} {head if at == 0 else ''}".rstrip() for at, row in enumerate(rows)]
    return "```\n" + "\n".join(lines) + "\n```\n"


def pictures():
    """Each page with a picture, and the text that it should have."""
    for page in (TOP / "README.md", *sorted(TOP.glob("docs/*.md"))):
        text = page.read_text(encoding="utf-8")
        before, found, rest = text.partition("<!-- layers -->\n")
        if found:
            yield page, f"{before}{found}\n{picture()}\n<!-- end -->{rest.partition('<!-- end -->')[2]}"


def main():
    if sys.argv[1:] not in ([], ["--write"]):
        print(__doc__)
        return 0 if sys.argv[1:] == ["--help"] else 2
    faults, count = list(faulty_order()), 0
    for page, text in pictures():
        count += 1
        if page.read_text(encoding="utf-8") != text:
            if sys.argv[1:]:
                page.write_text(text, encoding="utf-8")
            else:
                faults.append(f"{page.relative_to(TOP)}: its picture isn't that of crates.txt: check/layers.py --write")
    print("\n".join(faults) if faults else f"layers: {len(layers())}, and {count} pictures of them")
    return 1 if faults else 0


sys.exit(main())
