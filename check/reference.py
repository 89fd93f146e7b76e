#!/usr/bin/env python3
"""Usage: check/reference.py [--open]

Makes the reference in out/doc/, which isn't committed, from the sources: a page of each crate with the head of the crate,
what it stands on, and its public items with their contracts and comments; a page with its definitions and which contracts
cite each of them; and README.md there, the crates by layer. With --open it shows the latter in a browser. The gate makes the
reference too, so the status is 0 only if every source could be read.
"""
import itertools
import pathlib
import re
import sys
import webbrowser

TOP = pathlib.Path(__file__).resolve().parent.parent
ITEM = re.compile(r"pub (?:const )?(struct|enum|trait|fn|const) (\w+)")
DEFINED = re.compile(r"(?:abbrev |unfoldable )?pub (?:abbrev |unfoldable )?(?:record |data )?(?!mod\b)([^\s:(]+)")
CLAUSE = re.compile(r"\s*(?:ensures|requires|decreases|ghost)\b")


def layers():
    """The layers of crates.txt, lowest first, each with its crates, and what each crate stands on."""
    lines, found = (TOP / "crates.txt").read_text(encoding="utf-8").split("\n"), []
    for line, after in zip(lines, [*lines[1:], ""]):
        if line.startswith("#"):
            if after and not after.startswith("#"):
                found.append((line[2:], {}))
        elif line:
            name, _, below = line.partition(":")
            found[-1][1][name.split()[0]] = below.split()
    return found


def crates():
    """Each crate with what it stands on."""
    return {name: below for _, listed in layers() for name, below in listed.items()}


def head_of(lines):
    return [line[3:].strip() for line in lines if line.startswith("//!")]


def comment_before(lines, at):
    """The comment of the item that begins at a line."""
    first = at
    while first and re.match(r"\s*(///|#\[)", lines[first - 1]):
        first -= 1
    return [line.strip()[3:].removeprefix(" ") for line in lines[first:at] if line.strip().startswith("///")]


def end_of_call(lines, at):
    """The last line of a function's head, without the brace that opens its body."""
    indent = re.match(r" *", lines[at]).group()
    in_clauses, opened = False, 0
    for i in range(at, len(lines)):
        in_clauses = in_clauses or bool(CLAUSE.match(lines[i]))
        if lines[i] in (f"{indent}{{", f"{indent}{{}}"):
            return i, lines[at:i]
        # A record in a clause has lines that end so, too.
        opened += lines[i].count("{") - lines[i].count("}")
        if lines[i].endswith(";") and not opened:
            return i + 1, [*lines[at:i], lines[i][:-1]]
        if not in_clauses and re.search(r" \{(\})?$", lines[i]):
            return i, [*lines[at:i], re.sub(r" \{(\})?$", "", lines[i])]
    raise ValueError(lines[at])


def block(lines, at):
    """The lines of an item that ends with a brace of its own, or of one line."""
    indent = re.match(r" *", lines[at]).group()
    if lines[at].endswith((";", "}")):
        return [lines[at]]
    end = next(i for i in range(at, len(lines)) if lines[i] == f"{indent}}}")
    return lines[at:end + 1]


def shown(item):
    """A declaration without what isn't public: the fields of a struct, and imports."""
    kept, skipped = [], 0
    is_struct = item[0].lstrip().startswith("pub struct")
    comment = []
    for line in item:
        inner = line.startswith("    ") and not line.startswith("     ")
        if inner and line.strip().startswith(("///", "//", "#[")):
            comment.append(line)
        elif inner and is_struct and not line.strip().startswith("pub "):
            comment, skipped = [], skipped + 1
        elif line.strip().startswith("ghost use") or (not line.strip() and not (kept and kept[-1].strip())):
            comment = []
        else:
            kept += comment + [line]
            comment = []
    if skipped:
        kept = [*kept[:-1], "    // and what isn't public", kept[-1]] if len(kept) > 2 else [kept[0].removesuffix(" {") + ";"]
    return kept


def calls_of(lines, name):
    """The public calls of a type, from the blocks that aren't of a trait."""
    for i, line in enumerate(lines):
        if not (re.match(rf"impl(<.*>)? {name}\b", line) and " for " not in line):
            continue
        end = next(j for j in range(i, len(lines)) if lines[j] == "}")
        for j in range(i, end):
            if re.match(r"    pub (const )?fn ", lines[j]):
                call = [part[4:] for part in end_of_call(lines, j)[1]]
                yield comment_before(lines, j), [call[0].replace("fn ", f"fn {name}::", 1), *call[1:]]


def code(lines):
    return ["```text", *lines, "```", ""]


def item_text(source, file, lines, name):
    """The lines on one public item of a file, but for a constant."""
    found = ((i, ITEM.match(line)) for i, line in enumerate(lines))
    at = next((i for i, m in found if m and m.group(2) == name and m.group(1) != "const"), None)
    if at is None:
        return []
    kind = ITEM.match(lines[at]).group(1)
    out = [f"### `{name}`, in [{file}]({source}/{file})", ""]
    out += code(end_of_call(lines, at)[1] if kind == "fn" else shown(block(lines, at)))
    out += [*comment_before(lines, at), ""]
    if kind != "fn":
        for comment, call in calls_of(lines, name):
            title = re.search(r"fn (\w+::\w+)", call[0]).group(1)
            out += [f"#### `{title}`", "", *code(call), *comment, ""]
    return out


def constants_text(source, file, lines, names):
    """The lines on the constants of a file, in one piece."""
    out = []
    for i, line in enumerate(lines):
        if (m := ITEM.match(line)) and m.group(1) == "const" and m.group(2) in names:
            end = next(j for j in range(i, len(lines)) if lines[j].endswith(";"))
            out += [f"/// {part}" for part in comment_before(lines, i)] + lines[i:end + 1]
    return [f"### Constants, in [{file}]({source}/{file})", "", *code(out)] if out else []


def public_names(folder, top):
    """The files with public names, in the order of the crate's head, and their names."""
    text = "\n".join(top)
    found = []
    for module in re.findall(r"^pub mod (\w+);", text, re.M):
        lines = (folder / f"src/{module}.rt").read_text(encoding="utf-8").split("\n")
        found.append((module, [m.group(2) for line in lines if (m := ITEM.match(line))]))
    for module, listed in re.findall(r"^pub use crate::(\w+)::(\{[^}]*\}|\w+);", text, re.M):
        found.append((module, re.findall(r"\w+", listed)))
    return found


def crate_page(crate, below, known):
    folder = TOP / "crates" / crate
    source = f"../../crates/{crate}/src"
    program = not (folder / "src/lib.rt").exists()
    top = (folder / ("src/main.rt" if program else "src/lib.rt")).read_text(encoding="utf-8").split("\n")
    own = [f"[`{name}`]({name}.md)" for name in below if name in known]
    kit = [f"`{name}`" for name in below if name not in known]
    out = [f"# `{crate}`", "", *head_of(top), ""]
    if own or kit:
        out += ["It stands on " + ", ".join(own + kit) + ".", ""]
    if (folder / "specs").is_dir() and any((folder / "specs").glob("*.antt")):
        out += [f"[Its definitions]({crate}-words.md) are what its contracts cite.", ""]
    if not program:
        passed_on = re.findall(r"^pub use (\w+)(?:::\w+)?::(\{[^}]*\}|\w+);", "\n".join(top), re.M)
        passed_on = [(where, re.findall(r"\w+", listed)) for where, listed in passed_on if where != "crate"]
        for where, names in passed_on:
            out += [f"It gives {', '.join(f'`{name}`' for name in names)} of [`{where}`]({where}.md) too.", ""]
        out += ["## What it gives", ""]
        seen = set()
        for module, names in public_names(folder, top):
            lines = (folder / f"src/{module}.rt").read_text(encoding="utf-8").split("\n")
            fresh = [name for name in names if (module, name) not in seen]
            seen.update((module, name) for name in fresh)
            out += constants_text(source, f"{module}.rt", lines, fresh)
            for name in fresh:
                out += item_text(source, f"{module}.rt", lines, name)
    return "\n".join(out).rstrip() + "\n"


def citations():
    """The public functions whose contracts cite each name of specs, by crate and name."""
    found = {}
    for path in sorted(TOP.glob("crates/*/src/**/*.rt")):
        lines = path.read_text(encoding="utf-8").split("\n")
        imported = {}
        for crate, file, names in re.findall(r"ghost use Rattle\.(\w+)\.specs\.([\w.]+?)\.\{([^}]*)\};", "\n".join(lines)):
            imported |= {name.split(" as ")[-1].strip(): (crate, name.split(" as ")[0].strip()) for name in names.split(",")}
        for i, line in enumerate(lines):
            if call := re.match(r"\s*pub (?:const )?fn (\w+)", line):
                head = " ".join(end_of_call(lines, i)[1])
                for word in set(re.findall(r"[\w-]+", head)) & set(imported):
                    found.setdefault(imported[word], set()).add(call.group(1))
    return found


def words_page(crate, cited):
    """The definitions of a crate, by file; none if it has no definitions."""
    out = [f"# The definitions of `{crate}`", "",
           f"What the contracts of [`{crate}`]({crate}.md) and of the crates above it cite, with the public functions whose",
           "contracts name each.", ""]
    empty = len(out)
    for path in sorted((TOP / "crates" / crate / "specs").glob("*.antt")):
        lines = path.read_text(encoding="utf-8").split("\n")
        rows, comment = [], []
        for line in lines:
            if line.startswith("--"):
                comment.append(line.lstrip("-").strip())
                continue
            if m := DEFINED.match(line):
                users = ", ".join(f"`{name}`" for name in sorted(cited.get((crate, m.group(1)), ())))
                rows.append(f"| `{m.group(1)}` | {' '.join(comment).replace('|', chr(92) + '|')} | {users} |")
            comment = []
        if rows and path.stem != "Lib":
            head = itertools.takewhile(lambda line: line.startswith("--"), lines)
            top = " ".join(line.lstrip("-").strip() for line in head)
            out += [f"## [{path.stem}](../../crates/{crate}/specs/{path.name})", "", *([top, ""] if top else [])]
            out += ["| name | says | cited by |", "|---|---|---|", *rows, ""]
    return "\n".join(out).rstrip() + "\n" if len(out) > empty else None


def first_sentence(crate):
    folder = TOP / "crates" / crate / "src"
    path = folder / "lib.rt" if (folder / "lib.rt").exists() else folder / "main.rt"
    text = " ".join(head_of(path.read_text(encoding="utf-8").split("\n")))
    return re.split(r"(?<=[.:]) ", text)[0].rstrip(":").rstrip(".") + "."


def layers_page():
    out = ["# The crates", "",
           "A crate stands only on crates of the rows below it. [ARCHITECTURE](../../docs/ARCHITECTURE.md) follows a byte through",
           "them.", "", "| layer | crate | is |", "|---|---|---|"]
    for layer, names in reversed(layers()):
        for i, name in enumerate(reversed(names)):
            out.append(f"| {layer if i == 0 else ''} | [`{name}`]({name}.md) | {first_sentence(name)} |")
    return "\n".join(out) + "\n"


def main():
    if sys.argv[1:] not in ([], ["--open"]):
        print(__doc__)
        return 0 if sys.argv[1:] == ["--help"] else 2
    known, cited = crates(), citations()
    pages = {"README.md": layers_page()}
    pages |= {f"{crate}.md": crate_page(crate, below, known) for crate, below in known.items()}
    pages |= {f"{crate}-words.md": text for crate in known if (text := words_page(crate, cited))}
    room = TOP / "out/doc"
    room.mkdir(parents=True, exist_ok=True)
    for old in set(room.glob("*.md")) - {room / name for name in pages}:
        old.unlink()
    for name, text in pages.items():
        (room / name).write_text(text, encoding="utf-8")
    print(f"reference: {len(pages)} pages in out/doc")
    if sys.argv[1:]:
        webbrowser.open((room / "README.md").as_uri())
    return 0


if __name__ == "__main__":
    sys.exit(main())
