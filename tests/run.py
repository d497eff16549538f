"""Runs the test groups over a built program.

    python3 tests/run.py [PROGRAM] [GROUP ..] [--list] [--slow] [--complete] [--missing]
                         [--patience N] [--jobs N]

PROGRAM is crates/streetmap/out/streetmap if it is left out, and all groups run if none is
named, several side by side, each in a process of its own. A group is a module of tests/groups/. It
is skipped if it needs a Debian package that is not installed. The last line counts the groups.
"""

import argparse
import ast
import importlib
import os
import shutil
import signal
import subprocess
import sys
import tempfile
import time
import traceback
from collections import Counter
from concurrent.futures import ThreadPoolExecutor, as_completed
from dataclasses import dataclass
from pathlib import Path
from types import FrameType
from typing import NoReturn

from harness import Context

TESTS = Path(__file__).resolve().parent
DEBIAN_PYTHON = Path("/usr/bin/python3")
BUILT = TESTS.parent / "crates" / "streetmap" / "out" / "streetmap"
# A group, or a command of the program, fails if it is not over after this number of seconds.
LIMIT, SLOW_LIMIT, COMMAND_LIMIT = 1800, 7200, 120
# The number of groups that run side by side by default. One processor is left to this process
# and to what clients of the groups do.
JOBS = max(1, len(os.sched_getaffinity(0)) - 1)
# These take longest, and begin first.
LONG = ("gateway", "lint", "machines", "map", "mirror", "package", "pieces")


def use_debian_python() -> None:
    """Goes on under Debian's Python, which finds the libraries that Debian's packages install."""
    if DEBIAN_PYTHON.exists() and Path(sys.executable).resolve() != DEBIAN_PYTHON.resolve():
        os.execv(DEBIAN_PYTHON, [str(DEBIAN_PYTHON), "-B", *sys.argv])


@dataclass(frozen=True)
class Group:
    """A module of tests/groups/, not imported before its packages are known to be there."""

    name: str
    what: str
    packages: tuple[str, ...]

    @classmethod
    def of(cls, path: Path) -> "Group":
        source = ast.parse(path.read_text())
        packages = [
            ast.literal_eval(statement.value)
            for statement in source.body
            if isinstance(statement, ast.Assign)
            and [target.id for target in statement.targets if isinstance(target, ast.Name)]
            == ["PACKAGES"]
        ]
        what = (ast.get_docstring(source) or "").partition("\n")[0]
        return cls(path.stem, what, *packages or [()])

    def missing(self) -> list[str]:
        """The Debian packages that the group needs and that are not installed."""
        return [name for name in self.packages if not is_installed(name)]

    def run(self, context: Context) -> None:
        importlib.import_module(f"groups.{self.name}").run(context)


def is_installed(package: str) -> bool:
    """Whether a Debian package is installed; on another system each is taken as installed."""
    if shutil.which("dpkg-query") is None:
        return True
    query = ["dpkg-query", "-W", "-f=${db:Status-Status}", package]
    found = subprocess.run(query, capture_output=True, text=True, check=False)
    return found.stdout == "installed"


def all_groups() -> dict[str, Group]:
    groups = [Group.of(path) for path in sorted((TESTS / "groups").glob("[a-z]*.py"))]
    return {group.name: group for group in groups}


def listed_packages() -> set[str]:
    """The packages of packages.txt, which `make deps` installs: one a line, after # a comment."""
    lines = (TESTS / "packages.txt").read_text().splitlines()
    return {line.partition("#")[0].strip() for line in lines} - {""}


def stop_late_group(_number: int, _frame: FrameType | None) -> NoReturn:
    raise TimeoutError("the group took too long")


@dataclass(frozen=True)
class Runner:
    """Runs groups over a program, in their short or their long form, with `patience` times the
    usual time limits. If all are wanted, a group that lacks a package has failed."""

    program: Path
    slow: bool
    patience: int
    complete: bool

    def run(self, group: Group) -> bool:
        """Runs a group in a folder of its own, prints its line, and returns whether it passed."""
        begun = time.monotonic()
        with tempfile.TemporaryDirectory(prefix=f"streetmap-{group.name}-") as folder:
            seconds = COMMAND_LIMIT * self.patience
            context = Context(self.program, Path(folder), self.slow, seconds)
            signal.alarm((SLOW_LIMIT if self.slow else LIMIT) * self.patience)
            try:
                group.run(context)
            except Exception:
                traceback.print_exc(file=sys.stdout)
                context.failures.append("the group did not end")
            finally:
                signal.alarm(0)
        passed = not context.failures and context.passed > 0
        verdict = "ok" if passed else "FAILED"
        counts = f"{context.passed} checks passed, {len(context.failures)} failed"
        print(f"{group.name:12} {verdict:7} {counts}, {time.monotonic() - begun:.1f} s", flush=True)
        return passed

    def run_apart(self, group: Group) -> tuple[str, bool]:
        """Runs a group in a process of its own. Gives what it printed, but for its summary, and
        whether it passed."""
        words = [sys.executable, "-B", __file__, str(self.program), group.name, "--jobs", "1"]
        words += ["--patience", str(self.patience), *(["--slow"] if self.slow else [])]
        ended = subprocess.run(
            words, stdout=subprocess.PIPE, stderr=subprocess.STDOUT, text=True, check=False
        )
        printed, _, _ = ended.stdout.rstrip("\n").rpartition("\n")
        return printed or ended.stdout, ended.returncode == 0

    def run_together(self, groups: list[Group], jobs: int) -> Counter[str]:
        """Runs groups side by side, `jobs` at once, and prints each as it ends."""
        counted: Counter[str] = Counter()
        with ThreadPoolExecutor(jobs) as pool:
            begun = [pool.submit(self.run_apart, group) for group in groups]
            for ended in as_completed(begun):
                printed, passed = ended.result()
                print(printed, flush=True)
                counted["passed" if passed else "failed"] += 1
        return counted

    def run_in_turn(self, groups: list[Group]) -> Counter[str]:
        """Runs groups one after the other in this process, which may use its alarm for them."""
        signal.signal(signal.SIGALRM, stop_late_group)
        return Counter("passed" if self.run(group) else "failed" for group in groups)

    def pass_over(self, group: Group, missing: list[str]) -> str:
        """Prints why a group is not run, and gives what that counts as."""
        kind = "failed" if self.complete else "skipped"
        print(f"{group.name:12} {kind}, not installed: {' '.join(missing)}", flush=True)
        return kind

    def run_all(self, groups: list[Group], jobs: int) -> Counter[str]:
        lacking = {group.name: group.missing() for group in groups}
        counted = Counter(
            self.pass_over(group, lacking[group.name]) for group in groups if lacking[group.name]
        )
        whole = [group for group in groups if not lacking[group.name]]
        if jobs > 1 and len(whole) > 1:
            long_first = sorted(whole, key=lambda group: group.name not in LONG)
            return counted + self.run_together(long_first, jobs)
        return counted + self.run_in_turn(whole)


def summary(counted: Counter[str]) -> str:
    skipped = f", {counted['skipped']} skipped" if counted["skipped"] else ""
    return f"{counted['passed']} passed, {counted['failed']} failed{skipped}"


def arguments() -> argparse.ArgumentParser:
    parser = argparse.ArgumentParser(description=__doc__.partition("\n")[0])
    parser.add_argument("words", nargs="*", metavar="PROGRAM GROUP")
    parser.add_argument("--list", action="store_true", help="names the groups")
    parser.add_argument("--slow", action="store_true", help="the long form of the groups")
    parser.add_argument("--complete", action="store_true", help="fails where one lacks a package")
    parser.add_argument("--missing", action="store_true", help="names packages to install")
    parser.add_argument(
        "--patience", type=int, default=1, metavar="N", help="N times the usual time limits"
    )
    parser.add_argument("--jobs", type=int, default=JOBS, metavar="N", help="N groups side by side")
    return parser


def main() -> int:
    parser = arguments()
    given = parser.parse_intermixed_args()
    groups = all_groups()
    needed = {package for group in groups.values() for package in group.packages}
    if unlisted := needed - listed_packages():
        parser.error(f"packages.txt lacks {' '.join(sorted(unlisted))}")
    if given.list:
        print("\n".join(f"{group.name:12} {group.what}" for group in groups.values()))
        return 0
    if given.missing:
        print("\n".join(it for it in sorted(listed_packages()) if not is_installed(it)))
        return 0
    words = given.words
    program = Path(words.pop(0)) if words and words[0] not in groups else BUILT
    if unknown := [name for name in words if name not in groups]:
        parser.error(f"no such group: {' '.join(unknown)}")
    if not os.access(program, os.X_OK) or program.is_dir():
        parser.error(f"no program at {program}: make build leaves one")
    chosen = [groups[name] for name in words or groups]
    runner = Runner(program.resolve(), given.slow, given.patience, given.complete)
    counted = runner.run_all(chosen, given.jobs)
    print(summary(counted), flush=True)
    return 1 if counted["failed"] else 0


if __name__ == "__main__":
    use_debian_python()
    sys.exit(main())
