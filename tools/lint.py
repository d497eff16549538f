"""Checks the sources with Debian's tools: python3 tools/lint.py [CHECK ..]

All checks run if none is named, and the exit status is 1 if one of them found something: `black`
and `mypy` read all Python, `shellcheck` all shell scripts, `eslint` and `tsc` the map page's
modules and its service worker, `eslint` their tests too, and `layout` is Rattle's own formatter,
without which `rt ci` refuses a crate. `pyproject.toml` and `tools/javascript/` have their settings.
`words` counts what CONTRIBUTING's table of words replaces (`tools/words.py`).
"""

import os
import shutil
import subprocess
import sys
from collections.abc import Iterator
from dataclasses import dataclass, field
from pathlib import Path

ROOT = Path(__file__).resolve().parent.parent
# Where types are kept, so that a second run reads only what has changed.
KEPT = ROOT / "tests" / "out"
# The settings for the map page, which do not lie in map/: all of that is installed.
PAGE = Path("tools", "javascript")
# Folders that hold nothing of ours.
OTHERS = {".git", ".mypy_cache", "__pycache__", "out"}
SHELLS = (b"#!/bin/sh", b"#!/bin/bash", b"#!/usr/bin/env bash")
# Debian's tools first, and the folders of its Node modules, which a Node from elsewhere lacks.
ENVIRONMENT = {
    "PATH": f"/usr/bin:{os.environ.get('PATH', '')}",
    "NODE_PATH": "/usr/share/nodejs:/usr/lib/nodejs",
}


@dataclass(frozen=True)
class Check:
    """A command that has to end with status 0."""

    words: list[str]
    added: dict[str, str] = field(default_factory=dict)

    def found(self) -> str:
        """What it found; nothing if all is well."""
        ended = subprocess.run(
            self.words,
            cwd=ROOT,
            env=os.environ | ENVIRONMENT | self.added,
            stdout=subprocess.PIPE,
            stderr=subprocess.STDOUT,
            text=True,
            check=False,
        )
        return (ended.stdout.strip() or "failed") if ended.returncode else ""


def all_files() -> Iterator[Path]:
    """The files of the repository, but for what is built."""
    for folder, folders, names in os.walk(ROOT):
        folders[:] = sorted(set(folders) - OTHERS)
        yield from (Path(folder, name).relative_to(ROOT) for name in sorted(names))


def is_shell(path: Path) -> bool:
    """Whether a file is a shell script, by its name or by its first line."""
    if path.suffix in (".sh", ".bash"):
        return True
    with (ROOT / path).open("rb") as file:
        return file.read(32).startswith(SHELLS)


def rattle() -> str:
    """Rattle's compiler, which is beside the command `rt`."""
    found = shutil.which("rt")
    return str(Path(found).resolve().with_name("rattle")) if found else "rattle"


def all_checks() -> dict[str, Check]:
    files = list(all_files())
    python = [str(path) for path in files if path.suffix == ".py"]
    # Modules of bench/ have names that others have too, so their types are checked apart.
    bench = [path for path in python if path.startswith("bench/")]
    others = [path for path in python if path not in bench]
    mypy = ["mypy", "--no-error-summary", "--cache-dir"]
    shell = [str(path) for path in files if is_shell(path)]
    proved = [str(path) for path in files if path.suffix in (".rt", ".antt")]
    eslint = ["eslint", "--no-eslintrc", "--config", str(PAGE / "eslintrc.json")]
    eslint += ["--format", "unix", "--ext", ".js,.mjs", "map", "gateway", "tests/map_modules"]
    return {
        "black": Check(["black", "--quiet", "--check", "--diff", *python]),
        "mypy": Check([*mypy, str(KEPT / "mypy"), *others]),
        "mypy-bench": Check([*mypy, str(KEPT / "mypy-bench"), *bench], {"MYPYPATH": "bench"}),
        "shellcheck": Check(["shellcheck", *shell]),
        "eslint": Check(eslint),
        "tsc": Check(["tsc", "--project", str(PAGE)]),
        "tsc-worker": Check(["tsc", "--project", str(PAGE / "worker.json")]),
        "layout": Check([rattle(), "fmt", "--check", *proved]),
        "words": Check([sys.executable, str(ROOT / "tools" / "words.py")]),
    }


def main() -> int:
    checks = all_checks()
    names = sys.argv[1:] or list(checks)
    status = 0
    for name in names:
        found = checks[name].found()
        print(f"{name}: {found or 'clean'}", flush=True)
        status = 1 if found else status
    return status


if __name__ == "__main__":
    sys.exit(main())
