#!/usr/bin/env python3
"""Usage: bench/gate.py

Runs the gate on a clean clone of HEAD, in a temporary folder, and prints what each crate cost. The minutes of processor
time are those of `rattle build`, which proves a library and compiles a program; of `rattle check`, which proves a
program; and of the checks that try its edits. Then come the most memory that one of its processes held, in gigabytes, and
how many edits it has. The last lines are the sums, the minutes by the clock, and the gate's verdict, whose status is
this program's. A kit may keep what a run on this machine passed in a folder `rattle-kept` beside its own: only where that
is moved aside is all done anew. What the gate writes goes to standard error. Reads /proc once a second, so it needs
Linux. What runs beside it isn't counted, and makes it slower.
"""

import os
import pathlib
import resource
import subprocess
import sys
import tempfile
import time

TOP = pathlib.Path(__file__).resolve().parent.parent
TICKS = os.sysconf("SC_CLK_TCK")
PAGE = os.sysconf("SC_PAGE_SIZE")


def proving(room):
    """Each process of rattle that builds or checks a crate in the room: its number and start, command, crate, seconds and
    bytes held."""
    for name in filter(str.isdigit, os.listdir("/proc")):
        try:
            words = pathlib.Path(f"/proc/{name}/cmdline").read_bytes().decode(errors="replace").split("\0")
            if os.path.basename(words[0]) != "rattle" or words[1] not in ("build", "check"):
                continue
            folder = os.readlink(f"/proc/{name}/cwd")
            if not folder.startswith(room):
                continue
            command = "edits" if "/rt-edit-" in folder else words[1]
            # the fields behind the process's name, which stands in brackets
            fields = pathlib.Path(f"/proc/{name}/stat").read_text().rpartition(")")[2].split()
            crate = words[words.index("--crate-name") + 1]
        except (OSError, ValueError, IndexError):
            continue
        yield (name, fields[19]), command, crate, (int(fields[11]) + int(fields[12])) / TICKS, int(fields[21]) * PAGE


def watch(process, room):
    """What each process in the room took until the gate ended."""
    seen = {}
    while process.poll() is None:
        for key, command, crate, seconds, held in proving(room):
            most = max(held, seen[key][3] if key in seen else 0)
            seen[key] = command, crate, seconds, most
        time.sleep(1)
    return seen.values()


def edits_of(crate):
    return len(list((TOP / "crates" / crate / "must-fail").glob("*.edit")))


def table(seen):
    """The lines of the table, dearest crate first, and the sums."""
    commands = ("build", "check", "edits")
    minutes, memory = {}, {}
    for command, crate, seconds, held in seen:
        row = minutes.setdefault(crate, dict.fromkeys(commands, 0))
        row[command] += seconds / 60
        memory[crate] = max(memory.get(crate, 0), held)
    yield "| crate | builds | checks | edits | how many | gigabytes |"
    yield "|---|---|---|---|---|---|"
    for crate, row in sorted(minutes.items(), key=lambda it: -sum(it[1].values())):
        cells = " | ".join(f"{row[command]:.1f}" if row[command] else "" for command in commands)
        yield f"| `{crate}` | {cells} | {edits_of(crate) or ''} | {memory[crate] / 1e9:.1f} |"
    sums = [sum(row[command] for row in minutes.values()) for command in commands]
    yield f"| sum | {' | '.join(f'{it:.0f}' for it in sums)} | {sum(map(edits_of, minutes))} | |"


def main():
    if sys.argv[1:]:
        print(__doc__)
        return 0 if sys.argv[1:] == ["--help"] else 2
    with tempfile.TemporaryDirectory(prefix="gate-") as room:
        # rt ci runs the programs and the tests as nobody, where it runs as root
        os.chmod(room, 0o755)
        subprocess.run(["git", "clone", "-q", str(TOP), f"{room}/clone"], check=True)
        with open(f"{room}/log", "w+", errors="replace") as log:
            start = time.monotonic()
            # the copies on which edits are tried stand in the room, too
            os.mkdir(f"{room}/tmp")
            process = subprocess.Popen(["bash", ".ci/run"], cwd=f"{room}/clone", env=os.environ | {"TMPDIR": f"{room}/tmp"},
                                       stdout=log, stderr=subprocess.STDOUT)
            seen = watch(process, os.path.realpath(room))
            clock = (time.monotonic() - start) / 60
            log.seek(0)
            written = log.read()
    sys.stderr.write(written)
    print("\n".join(table(seen)))
    used = resource.getrusage(resource.RUSAGE_CHILDREN)
    print(f"{(used.ru_utime + used.ru_stime) / 60:.0f} minutes of processor time in all, what was too short to be seen too")
    print(f"{clock:.0f} minutes by the clock")
    lines = written.split("\n")
    print(next((line for line in lines if line.startswith("rt: ok")), "rt: not ok"))
    print(next((line for line in lines if " passed, " in line), "no verdict"))
    return process.returncode


if __name__ == "__main__":
    sys.exit(main())
