"""The scripts that make runs: its list of targets, a build with no change, wrong bodies by name."""

import importlib.util
import re
import subprocess
import sys
from dataclasses import dataclass, field
from pathlib import Path
from types import ModuleType, SimpleNamespace
from typing import Any

from harness import TESTS, Context

ROOT = TESTS.parent
TOOLS = ROOT / "tools"


def load_tool(name: str) -> ModuleType:
    """A script of tools/ as a module."""
    sys.path.insert(0, str(TOOLS))
    try:
        spec = importlib.util.spec_from_file_location(name, TOOLS / f"{name}.py")
        assert spec is not None and spec.loader is not None
        tool = importlib.util.module_from_spec(spec)
        spec.loader.exec_module(tool)
        return tool
    finally:
        sys.path.remove(str(TOOLS))


@dataclass
class BuiltCrate:
    """A crate in a scratch folder, with a library that was made of it. Its stamp is made of those
    of the crates that it uses, as the toolchain's is."""

    folder: str
    deps: list["BuiltCrate"]
    stamps: list[str] = field(default_factory=list)
    is_program: bool = False

    @property
    def rlib(self) -> str:
        return f"{self.folder}/out/rlib"

    def below(self) -> list["BuiltCrate"]:
        return self.deps

    def stamp(self) -> str:
        self.stamps.append(self.folder)
        return ",".join([self.folder, *(it.stamp() for it in self.deps)])


def check_build(context: Context) -> None:
    """A build with no change takes one stamp of each crate, and finds a change."""
    build = load_tool("build")
    rt: Any = SimpleNamespace(Crate=BuiltCrate)
    crates: list[BuiltCrate] = []
    stamps: list[str] = []
    for number in range(12):
        crate = BuiltCrate(str(context.folder / f"crate{number}"), [*crates], stamps)
        Path(crate.rlib).mkdir(parents=True)
        Path(crate.rlib, "statements").write_text(str(number))
        crates.append(crate)
    for crate in crates:
        build.mark_of(crate).write_text(build.sum_of(crate))
    stamps.clear()
    context.check("crates that are built", build.are_built(rt, crates), True)
    context.check("stamps that were taken", len(stamps), len(crates))
    Path(crates[3].rlib, "statements").write_text("other")
    context.check("a crate that changed", build.are_built(rt, crates), False)


def make(*words: str) -> str:
    """What make prints."""
    ended = subprocess.run(["make", *words], cwd=ROOT, capture_output=True, text=True, check=False)
    return ended.stdout


def check_make(context: Context) -> None:
    """`make help` lists each target, bare `make` is that, and `make refuse` has wrong bodies."""
    makefile = (ROOT / "Makefile").read_text()
    phony = re.search(r"^\.PHONY: (.*)$", makefile, re.MULTILINE)
    targets = set(phony[1].split()) - {"toolchain"} if phony else set()
    listed = set(re.findall(r"^  (\w+) ", make("help"), re.MULTILINE))
    context.check("make help: its targets", listed, targets)
    context.check("bare make", make("--dry-run"), make("--dry-run", "help"))
    given = dict(re.findall(r"^(CRATE|BODY) \?= (\w+)$", makefile, re.MULTILINE))
    words = [sys.executable, str(TOOLS / "refuse.py"), given.get("CRATE", "")]
    ended = subprocess.run(words, capture_output=True, text=True, check=False)
    named = ended.stdout.split()
    context.check(
        "make refuse: its body", (ended.returncode, given.get("BODY") in named), (0, True)
    )


def run(context: Context) -> None:
    check_make(context)
    check_build(context)
