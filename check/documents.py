#!/usr/bin/env python3
"""Usage: check/documents.py

Checks what the documents show, prints what isn't so, and ends with status 1 then:

- Each piece of code of README.md and docs/LIBRARY.md is in a source file, or in one of examples/library.
- The first script and report of README.md are those of examples/clear.
- Each link of a page leads to a file. Each page of docs/ is in its index, and each example in its own.
- Each row of docs/PROTOCOL.md names definitions of its crates, functions of some source, and files of rows.
- Each row of a table of docs/SECURITY.md and docs/TESTING.md names edits and cases that exist.
- The bytes of docs/REPORT.md are where it says.
- Names in backticks are those of some source, script or file.
- README.md has at most 9,216 bytes, all pages together at most 300,000. A line outside tables and code has at most 120
  columns.
"""
import pathlib
import re
import sys

TOP = pathlib.Path(__file__).resolve().parent.parent
NAME = re.compile(r"^(?:abbrev |unfoldable )?(?:pub )?(?:abbrev |unfoldable )?(?:record |data )?([^\s:(]+)", re.M)


def defined(path):
    """The names that a file of definitions has: definitions, records, and constructors."""
    text = path.read_text(encoding="utf-8")
    return set(NAME.findall(text)) | set(re.findall(r"^  (\w+) :", text, re.M))


def faulty_snippets():
    files = [*TOP.glob("crates/*/src/*.rt"), *TOP.glob("examples/library/**/*.in")]
    sources = [path.read_text(encoding="utf-8") for path in files]
    for page in ("README.md", "docs/LIBRARY.md"):
        for snippet in re.findall(r"^```rust\n(.*?)^```", (TOP / page).read_text(encoding="utf-8"), re.M | re.S):
            if not any(snippet in source for source in sources):
                yield f"{page}: no source has {snippet.splitlines()[0]}"
    text = (TOP / "README.md").read_text(encoding="utf-8")
    shown = re.findall(r"^```\n(.*?)^```", text.split("## A first script")[1], re.M | re.S)
    script = "".join(line for line in (TOP / "examples/clear.txt").open(encoding="utf-8") if not line.startswith("#"))
    if shown[:2] != [script, (TOP / "examples/clear.stdout").read_text(encoding="utf-8")]:
        yield "README.md: the first script or its report isn't that of examples/clear"


def faulty_bytes():
    """What docs/REPORT.md takes apart stands where it says in the report of examples/run."""
    report = (TOP / "examples/run.stdout").read_text(encoding="utf-8")
    wires = dict(re.findall(r"^(client|server) wire ([0-9a-f]*)$", report, re.M))
    for part in (TOP / "docs/REPORT.md").read_text(encoding="utf-8").split("\n## ")[1:]:
        side = re.match(r"The (client|server)'s bytes", part)
        for at, shown in re.findall(r"^\| (\d+) \| `([0-9a-f]+)` \|", part, re.M) if side else ():
            if not wires[side.group(1)][2 * int(at):].startswith(shown):
                yield f"docs/REPORT.md: {shown} doesn't stand at {at} of the {side.group(1)}'s bytes"


def pages():
    indexes = [TOP / part / "README.md" for part in ("examples", "cases", "vectors")]
    return [*sorted(TOP.glob("*.md")), *indexes, *sorted(TOP.glob("docs/**/*.md"))]


def faulty_links():
    for page in pages():
        for link in re.findall(r"\]\(([^)#]+)[^)]*\)", page.read_text(encoding="utf-8")):
            if "://" not in link and not (page.parent / link).exists():
                yield f"{page.relative_to(TOP)}: {link} isn't there"
    index = (TOP / "docs/README.md").read_text(encoding="utf-8") + "(README.md)"
    names = (str(page.relative_to(TOP / "docs")) for page in TOP.glob("docs/**/*.md"))
    yield from (f"docs/README.md: {name} is missing" for name in names if f"({name})" not in index)
    index = (TOP / "examples/README.md").read_text(encoding="utf-8")
    names = (script.name for script in TOP.glob("examples/*.txt"))
    yield from (f"examples/README.md: {name} is missing" for name in names if f"({name})" not in index)


def faulty_protocol():
    known = {}
    for path in TOP.glob("crates/*/specs/*.antt"):
        known.setdefault(path.parent.parent.name, set()).update(defined(path))
    sources = "\n".join(path.read_text(encoding="utf-8") for path in TOP.glob("crates/*/src/*.rt"))
    items = set(re.findall(r"\b(?:fn|struct|trait|enum|ensures\*?) (\w+)", sources))
    for line in (TOP / "docs/PROTOCOL.md").read_text(encoding="utf-8").split("\n"):
        cells = [cell.strip() for cell in line.strip("|").split("|")]
        if len(cells) != 5 or "`" not in line:
            continue
        for crate, listed in re.findall(r"`(\w+)`: ([^;]*)", cells[2]):
            names = set(re.findall(r"`([^`]+)`", listed)) - known.get(crate, set())
            yield from (f"docs/PROTOCOL.md: {crate} has no {name}" for name in sorted(names))
        words = (word.split("::")[-1] for word in re.findall(r"`([^`]+)`", cells[3]))
        yield from (f"docs/PROTOCOL.md: no source has {word}" for word in words if word not in items)
        files = re.findall(r"`([^`]+)`", cells[4])
        yield from (f"docs/PROTOCOL.md: there is no {file}" for file in files if not (TOP / "vectors" / file).exists())


def faulty_claims():
    """Edits that a page names by their file, and cases that docs/SECURITY.md names as `cases/attack/NAME`."""
    edits = {path.name for kind in ("must-fail", "planted") for path in TOP.glob(f"crates/*/{kind}/*.edit")}
    for page in pages():
        text = page.read_text(encoding="utf-8")
        named = set(re.findall(r"`(\w+\.edit)`", text))
        yield from (f"{page.relative_to(TOP)}: there is no edit {name}" for name in sorted(named - edits))
        for name in sorted(set(re.findall(r"`(cases/[\w/.]+)`", text))):
            if not (TOP / name).exists():
                yield f"{page.relative_to(TOP)}: there is no {name}"


def faulty_names():
    """Names in backticks that no source, script or file has, but for fronts of names, as `x_..`. DIFFERENCES names what
    the ported crate has."""
    kinds = ("src", "specs", "proofs", "must-fail", "planted")
    roots = [*(TOP / top for top in (".ci", "bench", "check", "cases", "docs", "examples", "vectors")),
             *(folder for kind in kinds for folder in TOP.glob(f"crates/*/{kind}"))]
    tops = ("sshlink", "sshservice", "sshaudit", "sshmux", "sshpipe", "wrapper.sh", "install", "vendor", "NOTICE", "LICENSE", "VERSION", "crates.txt")
    files = [*(TOP / file for file in tops), *(path for root in roots for path in root.rglob("*"))]
    read = [path for path in files if path.is_file() and path.suffix != ".md"]
    texts = (path.read_text(encoding="utf-8", errors="replace") for path in read)
    paths = (str(path.relative_to(TOP)) for path in files)
    words = set(re.findall(r"\w+", "\n".join((*texts, *paths))))
    for page in pages():
        if page.name == "DIFFERENCES.md":
            continue
        text = re.sub(r"^```.*?^```", "", page.read_text(encoding="utf-8"), flags=re.M | re.S)
        for quoted in re.findall(r"`([^`\n]+)`", text):
            parts = [part.strip() for part in re.split(r"::|, |\.", quoted)]
            if any(re.fullmatch(r"(?![0-9a-f]{8})[A-Za-z]\w*[^\W_]", part) and part not in words for part in parts):
                yield f"{page.relative_to(TOP)}: nothing is named {quoted}"


def faulty_sizes():
    sizes = {page: page.stat().st_size for page in pages()}
    if sizes[TOP / "README.md"] > 9216:
        yield f"README.md: {sizes[TOP / 'README.md']} bytes"
    if sum(sizes.values()) > 300_000:
        yield f"all pages have {sum(sizes.values())} bytes"
    for page in pages():
        in_code = False
        for number, line in enumerate(page.read_text(encoding="utf-8").split("\n"), 1):
            in_code ^= line.startswith("```")
            if len(line) > 120 and not in_code and not line.startswith("|"):
                yield f"{page.relative_to(TOP)}: line {number} has {len(line)} columns"


def main():
    if sys.argv[1:]:
        print(__doc__)
        sys.exit(0 if sys.argv[1:] == ["--help"] else 2)
    checks = (faulty_snippets, faulty_links, faulty_protocol, faulty_claims, faulty_bytes, faulty_names, faulty_sizes)
    faults = [fault for check in checks for fault in check()]
    print("\n".join(faults) if faults else "documents: what they show is where they say")
    sys.exit(1 if faults else 0)


main()
