#!/usr/bin/env python3
"""Usage: check/programs.py [--write]

Makes the usages, the man pages and the tables of exit statuses of the five programs from docs/programs.txt, and compares
them with what docs/usage/, docs/man/ and the pages have; with --write it writes them there. In a page, the table is what
stands between the lines `<!-- statuses of NAME -->` and `<!-- end -->`. The status is 0 if nothing differs."""

import pathlib
import re
import sys

TOP = pathlib.Path(__file__).resolve().parent.parent
WRAPPED = (
    ("126", "the program couldn't be built or tried"),
    ("127", "there is no rt to build or try it"),
)


class Program:
    """What the source says of one program: each kind of line, in order, its fields apart."""

    def __init__(self, name, does):
        self.name, self.does, self.lines = name, does, []

    def all(self, kind):
        return [fields for it, fields in self.lines if it == kind]


def programs():
    """The programs of the source."""
    found, joined = [], []
    for line in (TOP / "docs/programs.txt").read_text(encoding="utf-8").splitlines():
        if line.startswith(" ") and joined:
            joined[-1] += line
        elif line and not line.startswith("#"):
            joined.append(line)
    for line in joined:
        kind, _, rest = line.partition(" ")
        limit = {"status": 3, "form": 0, "usage": 0}.get(kind, 1)
        fields = [it.strip() for it in rest.split(" | ", limit)] if limit else [rest]
        if kind == "program":
            found.append(Program(*fields))
        else:
            found[-1].lines.append((kind, fields))
    return found


def folded(words, first, width=120):
    """Words in lines of at most this width, the first behind `first`, the others behind as many spaces."""
    line, lines = first, []
    for word in words:
        if len(line) + len(word) > width:
            lines.append(line.rstrip())
            line = " " * len(first)
        line += word
    return [*lines, line.rstrip()]


def usage_of(program):
    """The usage text."""
    uses = [(f"{program.name} {words}", does) for words, does in program.all("use")]
    uses.append((f"{program.name} --prove", "prove and build the program"))
    width = max(len(words) for words, _ in uses)
    lines = [f"{'usage:' if at == 0 else '      '} {words:{width}}    {does}" for at, (words, does) in enumerate(uses)]
    lines.append(f"       {program.name} --help, --version")
    lines += [fields[0] for fields in program.all("usage")]
    told = [f"{number} {short}, " for number, short, _, _ in program.all("status")]
    told[-1] = told[-1].replace(", ", "; ")
    last = ["126 if the program isn't built, ", "127 if there is no rt to build it"] if program.name == "sshpipe" else [
        "126 and 127 if the program couldn't be built or tried"]
    lines += folded([*told, *last], "Status: ")
    table = program.all("table")
    script = program.all("example")[0][1]
    page = table[0][0] if table else "docs/SCRIPTS.md"
    if program.name != "sshpipe":
        lines.append(f"Try     ./{script}        The language: {page}")
    return "\n".join(lines) + "\n"


def roff(text):
    """Text as troff takes it."""
    text = text.replace("\\", "\\e").replace("-", "\\-")
    return re.sub(r"(?m)^([.'])", r"\\&\1", text).replace("`", "")


def man_of(program, others):
    """The man page."""
    lines = [f'.TH {program.name.upper()} 1 "" "Lirghette" "User Commands"', ".SH NAME",
             f"{program.name} \\- {roff(program.does)}", ".SH SYNOPSIS"]
    for words, _ in program.all("use"):
        lines += [f".B {program.name}", roff(words), ".br"]
    lines.pop()
    lines += [".SH DESCRIPTION", f".B {program.name}"]
    for at, (text,) in enumerate(program.all("about")):
        lines += [".PP"] * (at > 0) + [roff(text)]
    for words, does in program.all("command"):
        lines += [".TP", f".B {roff(words)}", roff(does)]
    if program.all("form"):
        lines += [".SH SCRIPTS", "A script is read from standard input, or from the file SCRIPT if the wrapper at the top of the",
                  "repository is called with one. A line has one form:", ".PP", ".nf"]
        lines += [roff(text) for text, in program.all("form")] + [".fi"]
    lines += [".SH OUTPUT"]
    lines += [roff(text) for text, in program.all("output")]
    lines += [".SH EXIT STATUS"]
    for number, _, text, written in program.all("status"):
        lines += [".TP", f".B {number}", roff(f"{text[0].upper()}{text[1:]}. Written: {written}.")]
    for number, text in WRAPPED:
        lines += [".TP", f".B {number}", roff(f"{text[0].upper()}{text[1:]} (of the wrapper at the top of the repository).")]
    if program.name != "sshpipe":
        lines += [".SH ENVIRONMENT", ".TP", f".B {program.name.upper()}_QUIET",
                  "If it is 1, the wrapper writes nothing of its own to standard error."]
    lines += [".SH EXAMPLES"]
    for text, command in program.all("example"):
        lines += [roff(text), ".PP", ".nf", f"    {roff(command)}", ".fi", ".PP"]
    if program.all("bug"):
        lines += [".SH BUGS", *[roff(text) for text, in program.all("bug")]]
    lines += [".SH SEE ALSO", *[f".BR {it} (1)," for it in others], *[roff(text) for text, in program.all("see")]]
    return "\n".join(lines) + "\n"


def table_of(program):
    """The table of statuses of a page."""
    rows = ["| status | when | written |", "|---|---|---|"]
    rows += [f"| {number} | {text} | {written} |" for number, _, text, written in program.all("status")]
    return "\n".join(rows) + "\n"


def made():
    """Each file with the text that it should have."""
    every = programs()
    for program in every:
        yield TOP / f"docs/usage/{program.name}.txt", usage_of(program)
        yield TOP / f"docs/man/{program.name}.1", man_of(program, [it.name for it in every if it is not program])
        for page, in program.all("table"):
            path = TOP / page
            text = path.read_text(encoding="utf-8")
            begin, end = f"<!-- statuses of {program.name} -->\n", "<!-- end -->\n"
            before, found, rest = text.partition(begin)
            behind = rest.partition(end)[2]
            yield path, f"{before}{begin}\n{table_of(program)}\n{end}{behind}" if found and behind is not None else None


def main():
    if sys.argv[1:] not in ([], ["--write"]):
        print(__doc__)
        return 0 if sys.argv[1:] == ["--help"] else 2
    differ = count = 0
    for path, text in made():
        count += 1
        if text is None:
            print(f"{path.relative_to(TOP)}: there is no place for a table of statuses")
            differ += 1
        elif not path.is_file() or path.read_text(encoding="utf-8") != text:
            if sys.argv[1:]:
                path.parent.mkdir(exist_ok=True)
                path.write_text(text, encoding="utf-8")
            else:
                print(f"{path.relative_to(TOP)} isn't what docs/programs.txt says: check/programs.py --write")
                differ += 1
    print(f"programs: {count} texts, {differ} differ")
    return 1 if differ else 0


sys.exit(main())
