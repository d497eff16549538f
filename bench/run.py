"""Times the built program on this machine, beside plain programs that do the same.

    python3 bench/run.py PROGRAM [NAME ..] [--list] [--slow]

All measures run if none is named. Each is a module of this folder. With --slow those that have
a long form run it.
"""

import argparse
import importlib
import os
import sys
import tempfile
from pathlib import Path

HERE = Path(__file__).resolve().parent
NAMES = (
    *("lines", "tables", "imports", "loading", "journal", "polygons", "serving", "clients"),
    *("conditional", "gateway", "mirror", "sizes"),
)


def arguments() -> argparse.Namespace:
    parser = argparse.ArgumentParser(description=(__doc__ or "").partition("\n")[0])
    parser.add_argument("program", nargs="?", type=Path, metavar="PROGRAM")
    parser.add_argument("names", nargs="*", metavar="NAME")
    parser.add_argument("--list", action="store_true", help="names the measures")
    parser.add_argument("--slow", action="store_true", help="the long form of the measures")
    given = parser.parse_args()
    if unknown := [name for name in given.names if name not in NAMES]:
        parser.error(f"no such measure: {' '.join(unknown)}")
    if not given.list and (given.program is None or not os.access(given.program, os.X_OK)):
        parser.error("no program: make build leaves one")
    return given


def main() -> None:
    # Requests and free ports are those of the test groups.
    sys.path.append(str(HERE.parent / "tests"))
    given = arguments()
    for name in given.names or NAMES:
        measure = importlib.import_module(name)
        what = (measure.__doc__ or "").partition("\n")[0]
        print(f"{name}: {what}", flush=True)
        if given.list:
            continue
        work = getattr(measure, "run_slow", measure.run) if given.slow else measure.run
        with tempfile.TemporaryDirectory(prefix=f"streetmap-{name}-") as folder:
            work(given.program.resolve(), Path(folder))


if __name__ == "__main__":
    main()
