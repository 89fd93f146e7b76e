#!/usr/bin/env python3
"""Usage: check/grammar.py [FOLDER..]

Compares the grammar of scripts (docs/script.abnf) with the cases, those below cases/ if no folder is given. A case is
answered by status 3 and a line exactly where that line is the first which breaks the grammar, or a rule that the grammar's
head names. Prints each case where it isn't so, and ends with status 1 then.
"""
import pathlib
import re
import sys

TOP = pathlib.Path(__file__).resolve().parent.parent
TOKEN = re.compile(r'%s"([^"]*)"|"([^"]*)"|%x([0-9A-F]+)-([0-9A-F]+)|%x([0-9A-F]+)|(\d*\*)|([A-Za-z][A-Za-z0-9-]*)|([()/\[\]])|\s+')


def rules():
    text = re.sub(r";.*", "", (TOP / "docs/script.abnf").read_text(encoding="utf-8"))
    text = re.sub(r"\n +", " ", text)
    return dict(re.match(r"(\S+)\s*=\s*(.*)", line).groups() for line in text.splitlines() if line.strip())


def pattern(name, known, made):
    """The rule as a regular expression over bytes."""
    if name not in made:
        out, repeat, text, at = [], "", known[name], 0
        opened = []
        while at < len(text):
            token = TOKEN.match(text, at)
            if not token:
                raise ValueError(f"{name}: {text[at:]}")
            at = token.end()
            exact, loose, low, high, one, times, rule, mark = token.groups()
            part = None
            if exact is not None:
                part = re.escape(exact.encode())
            elif loose is not None:
                part = b"(?i:" + re.escape(loose.encode()) + b")"
            elif low:
                part = b"[\\x%s-\\x%s]" % (low.encode(), high.encode())
            elif one:
                part = b"\\x" + one.encode()
            elif times:
                repeat = {"*": "*", "1*": "+"}[times]
            elif rule:
                part = pattern(rule, known, made)
            elif mark in ("(", "["):
                opened.append((len(out), repeat, mark))
                repeat = ""
                out.append(b"(?:")
            elif mark in (")", "]"):
                start, again, kind = opened.pop()
                group = b"".join(out[start:]) + b")" + again.encode() + (b"?" if kind == "[" else b"")
                out[start:] = [group]
            elif mark == "/":
                out.append(b"|")
            if part is not None:
                out.append(b"(?:" + part + b")" + repeat.encode() if repeat else b"(?:" + part + b")")
                repeat = ""
        made[name] = b"(?:" + b"".join(out) + b")"
    return made[name]


def breaks_beyond(words, seen, stepped):
    """Whether a line that the grammar takes breaks one of the rules beyond it."""
    if words[0] == b"offer":
        return stepped or len(words[1]) > 255
    if words[0] == b"wire":
        again = b"wire " + words[1] in seen
        seen.add(b"wire " + words[1])
        return again
    if words[0] != b"set":
        numbers = {b"deliver": words[-1:], b"sent": words[1:]}.get(words[0], [])
        return any(int(n) >= 2 ** 64 for n in numbers)
    if stepped:
        return True
    what, values = words[2], words[3:]
    if what in (b"limits", b"seed"):
        return any(int(n) >= 2 ** 64 for n in values)
    if what == b"refuse":
        return int(values[1]) >= 2 ** 64
    if what in (b"gex", b"group"):
        return any(int(n) > 65536 for n in values)
    if what in (b"id", b"rawid"):
        text = values[0] if what == b"id" else bytes.fromhex("" if values[0] == b"-" else values[0].decode())
        try:
            text.decode()
        except UnicodeDecodeError:
            return True
    if what in (b"host", b"hostcert"):
        blob = values[1].lower()
        again = blob in seen
        seen.add(blob)
        return again
    return False


def first_fault(text, word, form):
    seen, stepped = set(), False
    for i, line in enumerate(text.split(b"\n"), 1):
        line = line[:-1] if line.endswith(b"\r") else line
        words = [w for w in line.split(b" ") if w]
        if not words or words[0].startswith(b"#"):
            continue
        if not form.fullmatch(line) or breaks_beyond(words, seen, stepped):
            return i
        stepped = stepped or words[0] not in (b"set", b"offer", b"secret", b"wire", b"sent")
    return None


def main():
    if "--help" in sys.argv:
        print(__doc__)
        return
    for word in sys.argv[1:]:
        if not pathlib.Path(word).is_dir():
            sys.exit(f"there is no folder {word}")
    known, made = rules(), {}
    spaces = pattern("SP", known, made) + b"*"
    forms = {w: re.compile(spaces + pattern(f"{w}-form", known, made) + spaces, re.S) for w in ("clear", "run", "attack", "service", "audit")}
    compared, differ = 0, []
    folders = [pathlib.Path(word).resolve() for word in sys.argv[1:]] or [TOP / "cases"]
    for case in sorted(path.parent for folder in folders for path in folder.glob("**/args")):
        words = (case / "args").read_text(encoding="utf-8", errors="replace").split()
        if len(words) != 1 or words[0] not in forms or not (case / "stdin").exists():
            continue
        text = (case / "stdin").read_bytes()
        status = (case / "status").read_text(encoding="utf-8").strip() if (case / "status").exists() else "0"
        told = None
        if status == "3":
            told = int((case / "stdout").read_bytes().split()[1])
            if told == 0:
                continue
        elif status not in ("0", "1"):
            continue
        compared += 1
        found = first_fault(text, words[0], forms[words[0]])
        if found != told:
            differ.append(f"{case}: the grammar's first fault is in line {found}, the program's in {told}")
    print("\n".join(differ + [f"grammar: {compared} scripts compared, {len(differ)} differ"]))
    sys.exit(bool(differ) or not compared)


main()
