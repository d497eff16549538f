"""Breaks a function of a crate, and shows the prover refuse it.

    python3 tools/refuse.py CRATE BODY
    python3 tools/refuse.py CRATE          names the wrong bodies of the crate

BODY names a file of crates/CRATE/must-fail/. Two checks are made, each of the function with all
that it calls: one of the sources as they are, and one of a copy with the wrong body. The crates
that CRATE uses are taken as `make build` left them. Nothing in the repository is changed.
"""

import os
import re
import sys
import tempfile
import time
from pathlib import Path
from types import ModuleType
from typing import Any

import toolchain
from refusals import is_of, messages_of
from wrong_bodies import Edit, Function, applied, read_edit

ROOT = Path(__file__).resolve().parent.parent
# What of the command rt is called here.
NEEDED = ("checked", "rtlib", "Crate")
# How much of the prover's message is shown.
SHOWN = 240
# In how many processes a check may work.
JOBS = "2"


def names_of(crate: str) -> list[str]:
    """The names of a crate's wrong bodies."""
    return sorted(it.stem for it in Path(ROOT, "crates", crate, "must-fail").glob("*.edit"))


def paths_of(edit: Edit) -> list[str]:
    """The toolchain's names for the functions that an edit changes."""
    return sorted(it.path for it in edit.functions or ())


def contract_of(folder: str, function: Function) -> str:
    """The head of a function as its source has it, with its contract and the line above it."""
    lines = Path(folder, function.file).read_text(encoding="utf-8").splitlines()
    start = function.lines.start - 1
    stop = next(at for at in range(start, len(lines)) if lines[at].endswith("{"))
    return "\n".join(lines[max(start - 1, 0) : stop])


def show_change(folder: str, edit: Edit) -> None:
    """Prints the contract of each changed function, and the changed lines as a diff does."""
    for function in edit.functions or ():
        print(f"{function.file}:\n{contract_of(folder, function)}\n")
    for _, old, new in edit.pairs:
        print(f"- {old.strip()}\n+ {new.strip()}\n", flush=True)


def refusal_in(edit: Edit, output: str) -> str:
    """The prover's first error about a function that the edit changes; else its first error."""
    messages = messages_of(output)
    functions = edit.functions or frozenset()
    own = [it for it in messages if any(is_of(it, each.path, each) for each in functions)]
    errors = [it for it in messages if re.search(r"\berror\b", it)]
    found = [it for it in own if it in errors] or own or errors
    return next(iter(found), output[-SHOWN:])


def lacking(crate: Any) -> list[str]:
    """The crates below that are not built."""
    return [it.name for it in crate.below() if not Path(it.rlib).exists()]


def is_proved(rt: ModuleType, crate: Any, edit: Edit | None, only: list[str], kept: str) -> Any:
    """Whether a check of a copy proves it, with an edit if one is given; and what it printed."""
    begun = time.monotonic()
    texts = applied(crate.folder, edit, {}) if edit else {}
    words = [word for path in only for word in ("--only", path)]
    ran = rt.checked(crate, texts, [*words, "--jobs", JOBS], kept)
    proved = ran.returncode == 0
    verdict = "proved" if proved else "refused"
    what = "With the wrong body" if edit else "As it is"
    print(f"{what}: {verdict}, {time.monotonic() - begun:.0f} s", flush=True)
    return proved, ran.stdout


def refuse(rt: ModuleType, crate: Any, edit: Edit) -> int:
    """Makes both checks, and prints what refuses the wrong body."""
    show_change(crate.folder, edit)
    only = paths_of(edit)
    with tempfile.TemporaryDirectory(prefix="streetmap-refuse-") as kept:
        proved, output = is_proved(rt, crate, None, only, kept)
        if not proved:
            print(output, end="")
            return 1
        passed, output = is_proved(rt, crate, edit, only, kept)
    message = refusal_in(edit, output)
    print(f"\n{message[:SHOWN]}{' ..' if len(message) > SHOWN else ''}")
    for line in re.findall(r"^fn .*: not proved.*$", output, re.MULTILINE):
        print(line[:SHOWN])
    return int(passed)


def main(words: list[str]) -> int:
    names = names_of(words[0]) if words else []
    if len(words) != 2 or words[1] not in names:
        print("\n".join(names) or "usage: python3 tools/refuse.py CRATE [BODY]")
        return 0 if len(words) == 1 and names else 2
    rt = toolchain.load(*NEEDED)
    if rt is None:
        print("This toolchain has other parts: try rt must-fail", words[0])
        return 1
    crate = next(it for it in toolchain.crates_below(rt, str(ROOT)) if it.name == words[0])
    if missing := lacking(crate):
        print(f"Not built: {' '.join(missing)}. make build builds them.")
        return 1
    rt.rtlib.guarded()
    os.chdir(crate.folder)
    path = Path(crate.folder, "must-fail", f"{words[1]}.edit")
    return refuse(rt, crate, read_edit(crate.folder, str(path)))


if __name__ == "__main__":
    sys.exit(main(sys.argv[1:]))
