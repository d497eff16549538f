"""Proves and builds the program, and reports how far it is.

    python3 tools/build.py [PROCESSES]

Crates are proved side by side, each once those that it uses are proved, and the program last, which
is compiled and run once. A crate's out/ keeps what those above it read: its statements, and not
their proofs. So a build that was stopped goes on from there, and one with no change since the last
does nothing. PROCESSES is the number of processors, or less if memory is short.
"""

import hashlib
import os
import re
import shutil
import signal
import subprocess
import sys
import tempfile
import time
from concurrent.futures import FIRST_COMPLETED, Future, ThreadPoolExecutor, wait
from pathlib import Path
from types import ModuleType
from typing import Any

import toolchain

ROOT = Path(__file__).resolve().parent.parent
PROGRAM = "streetmap"
OUT = ROOT / "crates" / PROGRAM / "out"
BUILT = OUT / PROGRAM
LOG = OUT / "build.log"
# What of the command rt is called here.
NEEDED = ("handles_of", "run", "rtlib", "Crate")
# The memory that one process may take.
PROCESS_MEMORY = 4_000_000_000
# The seconds after which a line says what is under way, if no crate was done.
PATIENCE = 120
START = """\
Proving {crates} crates in {count} processes. From nothing this takes some 35 minutes on four
processors; make try serves the sample town in a minute, with no proof. Stopped, the build goes on
from there."""


def processes() -> int:
    """The number of processors, or fewer if memory is short."""
    memory = re.search(r"MemAvailable:\s+(\d+) kB", Path("/proc/meminfo").read_text())
    fit = int(memory[1]) * 1024 // PROCESS_MEMORY if memory else 1
    return max(min(len(os.sched_getaffinity(0)), fit), 1)


def made_of(crate: Any) -> list[Path]:
    """The files that a build of a crate leaves to those above it, or the program."""
    return [BUILT] if crate.is_program else sorted(Path(crate.rlib).rglob("*"))


def sum_of(crate: Any) -> str:
    """A checksum of what a proof of a crate reads and leaves: the sources of the crate and of those
    below it, and, by their times, what was made of each. Statements fit only what they were proved
    over."""
    total = hashlib.sha256(crate.stamp().encode())
    for path in [path for it in [*crate.below(), crate] for path in made_of(it)]:
        seen = path.stat()
        total.update(f"{path.name} {seen.st_size} {seen.st_mtime_ns}\n".encode())
    return total.hexdigest()


def mark_of(crate: Any) -> Path:
    """The file that says what a crate was built from."""
    return Path(crate.folder, "out", "build.sum")


def is_built(crate: Any) -> bool:
    made, mark = made_of(crate), mark_of(crate)
    is_there = made and all(it.exists() for it in made) and mark.exists()
    return bool(is_there) and mark.read_text() == sum_of(crate)


def are_built(rt: ModuleType, crates: list[Any]) -> bool:
    """Whether all crates are built. A stamp is made of those of all crates below, so each is taken
    once here: of the program it would be thousands."""
    stamp = rt.Crate.stamp
    stamps: dict[str, str] = {}

    def stamp_once(crate: Any) -> str:
        if crate.folder not in stamps:
            stamps[crate.folder] = stamp(crate)
        return stamps[crate.folder]

    rt.Crate.stamp = stamp_once
    try:
        return all(is_built(it) for it in crates)
    finally:
        rt.Crate.stamp = stamp


def build(crate: Any, jobs: int) -> bool:
    """Proves a crate, by `jobs` processes, and keeps what was made of it; returns whether it
    did."""
    mark_of(crate).parent.mkdir(exist_ok=True)
    mark_of(crate).unlink(missing_ok=True)
    with tempfile.TemporaryFile("w+", errors="replace") as crate.out:
        status = int(crate.ci(["--jobs", str(jobs)], False))
        if status == -signal.SIGKILL:
            # Most likely for memory: once more, with less of it.
            status = int(crate.ci(["--jobs", "1"], False))
        crate.out.seek(0)
        with LOG.open("a") as log:
            log.write(f"== {crate.name}\n{crate.out.read()}")
    if status == 0:
        mark_of(crate).write_text(sum_of(crate))
    return status == 0


def lines_behind(crates: list[Any]) -> dict[str, int]:
    """The lines of the longest chain of crates that begins with each."""
    behind: dict[str, int] = {}
    for crate in reversed(crates):
        above = [behind[it.name] for it in crates if crate in it.below()]
        behind[crate.name] = crate.count(rb"\n") + max(above, default=0)
    return behind


def shares(chains: list[int], longest: int, free: int) -> list[int]:
    """How many processes each crate that is ready gets of those that are free, by the lines of the
    chains that begin with them, the longest first. What all else waits for gets two, one beyond
    those that are free if need be, and if few are ready the first gets the rest."""
    given: list[int] = []
    for at, lines in enumerate(chains[:free]):
        rest = free - sum(given)
        spare = min(rest - len(chains[at + 1 :]), rest)
        given.append(max(2 if lines == longest else 1, spare))
    return given[: max(free, 0)]


def build_all(crates: list[Any], count: int) -> list[str]:
    """Builds crates, each once those that it uses are built, with a line for each that is done.
    Returns the names of those that failed, with all crates above them."""
    begun, behind = time.monotonic(), lines_behind(crates)
    built = {it.name for it in crates if is_built(it)}
    left = sorted((it for it in crates if it.name not in built), key=lambda it: -behind[it.name])
    running: dict[Future[bool], tuple[str, int]] = {}
    with ThreadPoolExecutor(count) as pool:
        while left or running:
            ready = [it for it in left if {dep.name for dep in it.below()} <= built]
            under_way = [name for name, _ in running.values()]
            # If memory allows for few processes none is taken beyond them.
            waiting = [*under_way, *(it.name for it in left)] if count >= 4 else []
            longest = max((behind[it] for it in waiting), default=0)
            free = count - sum(jobs for _, jobs in running.values())
            chains = [behind[it.name] for it in ready]
            for crate, jobs in zip(ready, shares(chains, longest, free)):
                left.remove(crate)
                running[pool.submit(build, crate, jobs)] = crate.name, jobs
            if not running:
                break
            ended = wait(running, PATIENCE, FIRST_COMPLETED).done
            found = {running.pop(it)[0]: it.result() for it in ended}
            built.update(name for name, is_well in found.items() if is_well)
            told = [name + ("" if is_well else " failed") for name, is_well in found.items()]
            told = told or ["at " + ", ".join(name for name, _ in running.values())]
            minutes = (time.monotonic() - begun) / 60
            how_far = f"{len(built)} of {len(crates)} crates, {minutes:.0f} min"
            print(f"{how_far}: {', '.join(told)}", flush=True)
    return [it.name for it in crates if it.name not in built]


def show_failure(failed: list[str]) -> None:
    """Prints the end of what the toolchain printed of each crate that failed."""
    parts = re.split(r"(?m)^== ", LOG.read_text())
    for part in [it for it in parts if it.split("\n")[0] in failed] or parts[-1:]:
        print("".join(part.splitlines(keepends=True)[-30:]), end="")
    print(f"The build failed. All that the toolchain printed is in {LOG.relative_to(ROOT)}.")


def end_at_signals(room: str) -> None:
    """Has Ctrl-C and an order to end stop all at once: what is under way ends with this process,
    and its files in a folder go."""

    def end(number: int, _: object) -> None:
        print("\nStopped.", flush=True)
        shutil.rmtree(room, ignore_errors=True)
        os._exit(128 + number)

    for number in (signal.SIGINT, signal.SIGTERM):
        signal.signal(number, end)


def crates_to_build(rt: ModuleType) -> list[Any]:
    """The program's crate and those below it, the lowest first. Each is proved as by `rt ci`, but
    that the program is compiled by LLVM alone."""
    compile_by = rt.Crate.compile_by

    def by_llvm(crate: Any, backend: str, words: list[str], to: str) -> int:
        return int(compile_by(crate, backend, words, to)) if backend == "llvm" else 0

    rt.Crate.compile_by = by_llvm
    rt.Crate.cuts_libraries = True
    rt.Crate.allowed = rt.handles_of(str(ROOT))
    program = next(it for it in toolchain.crates_below(rt, str(ROOT)) if it.name == PROGRAM)
    return [*program.below(), program]


def main() -> int:
    rt = toolchain.load(*NEEDED)
    if rt is None:
        # With a toolchain whose parts have other names crates are proved one after the other.
        with (OUT.parent / "stdin").open() as given:
            words = ["rt", "run", "--", "lines"]
            return subprocess.run(words, cwd=OUT.parent, stdin=given, check=False).returncode
    crates = crates_to_build(rt)
    if are_built(rt, crates):
        return 0
    rt.rtlib.guarded()
    held = rt.rtlib.lock(crates)
    count = int(sys.argv[1]) if len(sys.argv) > 1 else processes()
    print(START.format(crates=len(crates), count=count), flush=True)
    OUT.mkdir(exist_ok=True)
    LOG.write_text("")
    with tempfile.TemporaryDirectory(prefix="streetmap-build-") as room:
        end_at_signals(room)
        tempfile.tempdir = room
        failed = build_all(crates, count)
        tempfile.tempdir = None
    for it in held:
        os.close(it)
    if failed:
        show_failure(failed)
    return 0 if not failed and rt.run(crates[-1], False) else 1


if __name__ == "__main__":
    sys.exit(main())
