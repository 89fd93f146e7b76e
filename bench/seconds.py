#!/usr/bin/env python3
"""Usage: bench/seconds.py FOLDER [COUNT]

Prints where the time of a check went: of the modules in FOLDER, where a check kept what it proved, the dearest COUNT, or
20 where none is told. Each has the seconds between it and the module before it, its kilobytes, and its name. The times
are those at which the files were written, so the check has to begin with nothing kept, and with one job: in a crate's
folder, `rm -rf out/incremental && rt check --jobs 1`, and then `../../bench/seconds.py out/incremental`."""

import pathlib
import sys


def modules(folder):
    """Each kept module: when it was written, its bytes, and its name."""
    for path in folder.rglob("*.oantt"):
        if path.parent.name != "records":
            told = path.stat()
            yield told.st_mtime, told.st_size, path.stem


def main():
    if len(sys.argv) not in (2, 3) or "--help" in sys.argv:
        print(__doc__)
        sys.exit(0 if "--help" in sys.argv else 2)
    written = sorted(modules(pathlib.Path(sys.argv[1])))
    if not written:
        sys.exit(f"{sys.argv[1]}: no module is kept there")
    taken = sorted(
        ((now[0] - before[0], now[1], now[2]) for before, now in zip(written, written[1:])),
        reverse=True,
    )
    for seconds, size, name in taken[: int(sys.argv[2]) if len(sys.argv) == 3 else 20]:
        print(f"{seconds:7.1f} {size // 1000:7} {name}")


main()
