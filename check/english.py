#!/usr/bin/env python3
"""Usage: check/english.py [PAGE..]

Lists each word of this repository's old dialect that a page still has outside of code, with what to write in its place, on
all pages if none is named. Some are right where they are ("behind a firewall", "told the user"): at most 40 may be left, and
the status is 1 if there are more. docs/ENGLISH.md says how pages and comments are written."""

import pathlib
import re
import sys

TOP = pathlib.Path(__file__).resolve().parent.parent
MOST = 40
WORDS = (
    (r"\bbehind\b", "after, following"),
    (r"\bfront of\b", "prefix of"),
    (r"\b(?:told|tells)\b", "reported, returned, says"),
    (r"\bwant of memory\b|\bmemory (?:is|was) wanting\b|(?<=[.;] )Memory\.", "out of memory, fails with `Memory`"),
    (r"\banswered Ok\b", "returned Ok"),
    (r"\bhanded in\b", "that you provide"),
    (r"\bhands up\b|\bhanded up\b", "delivers"),
    (r"\bis at its end\b|\bat an end\b", "has failed"),
    (r"\bso many\b", "`n`, the number of"),
    (r"\bbut for\b", "except for"),
    (r"\bbeside\b", "besides, next to"),
    (r"\breckon(?:s|ed)?\b", "compute"),
    (r"\ba talk\b|\bthe talk\b|\btalks\b", "session, conversation"),
    (r"\bid lines?\b", "version line"),
    (r"\bthe other's\b|\btheirs\b", "the peer's"),
    (r"^(?:Of|Excepted) [^.:]*: that\b", "who does what"),
    (r"\bThe same, where\b", "a sentence that stands alone"),
)


def pages():
    parts = ("examples", "cases", "vectors")
    return [*sorted(TOP.glob("*.md")), *(TOP / part / "README.md" for part in parts), *sorted(TOP.glob("docs/**/*.md"))]


def prose(text):
    """The lines of a page, with what is in backticks, in code or the target of a link left out."""
    text = re.sub(r"^```.*?^```", lambda it: "\n" * it.group().count("\n"), text, flags=re.M | re.S)
    return re.sub(r"\]\([^)]*\)", "]", re.sub(r"`[^`\n]*`", "`code`", text)).split("\n")


def main():
    if "--help" in sys.argv:
        print(__doc__)
        return 0
    named = [pathlib.Path(it).resolve() for it in sys.argv[1:]]
    count = 0
    for page in named or pages():
        if page.name == "ENGLISH.md":
            continue
        for number, line in enumerate(prose(page.read_text(encoding="utf-8")), 1):
            for pattern, better in WORDS:
                for found in re.finditer(pattern, line):
                    count += 1
                    print(f"{page.relative_to(TOP)}:{number}: {found.group()!r}: {better}")
    print(f"english: {count} words to look at, at most {MOST}")
    return 1 if count > MOST else 0


sys.exit(main())
