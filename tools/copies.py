"""Whether copies of functions are proved as the functions are, over crates that the gate has built.

    python3 tools/copies.py NAME ..

The gate tries wrong bodies in copies of their functions (`tools/gate.py`). That such a copy is
refused says something of the wrong body only because the copy with the right body is proved, and
none of its answers is refused where these alone are read. It is the same text with the same proof
under another name, so it should be; here it is looked at, for each function of these crates that a
wrong body changes.
"""

import os
import shutil
import sys
import tempfile
from pathlib import Path
from types import ModuleType
from typing import Any

import gate
import toolchain
from refusals import STATUS, messages_of, refusal_of_copy
from seeds import Seeds
from wrong_bodies import NO_GOAL, Edit, parts_of, read_edit, round_in_copies, ways_of


def right_bodies(rt: ModuleType, crate: Any) -> list[Edit]:
    """Edits that change nothing: for each function that a wrong body changes, one for each way in
    which it is tried in a copy."""
    paths, _ = rt.edits_of(crate)
    edits = [read_edit(crate.folder, path) for path in paths]
    changed = {it.functions: it for it in edits}
    return [
        Edit(it.path, [(file, old, old) for file, old, _ in it.pairs], it.functions, way)
        for it in changed.values()
        for way in ways_of(crate.folder, it)
        if not way.is_in_place
    ]


def is_refused(crate: str, copy: Edit, output: str) -> bool:
    """Whether a check refuses an answer of a copy, leaves a goal of it open, or is silent."""
    messages = messages_of(output)
    proofs = f"./proofs/{'/'.join(parts_of(copy.function))}/"
    errors = [it for it in messages if it.startswith(proofs) and ": error" in it]
    is_told = any(
        copy.function.is_called(it[0].removeprefix(f"{crate}::")) for it in STATUS.findall(output)
    )
    is_open = refusal_of_copy(crate, copy, output) is not None
    return not is_told or is_open or any(f"`{NO_GOAL}`" not in it for it in errors)


def look_at(rt: ModuleType, crate: Any) -> bool:
    """Says how many copies there are, and which are refused; returns whether none is."""
    copies, texts = round_in_copies(crate.folder, right_bodies(rt, crate))
    words = [word for it in copies for word in ("--only", it.function.path)]
    with tempfile.TemporaryDirectory(prefix="streetmap-copies-") as room:
        kept = Seeds(rt).make(crate)
        place = shutil.move(f"{kept}/seed", room) if kept else room
        ran = gate.check_of(rt, crate, texts, ["--jobs", "1", *words], place)
    bad = [it.function.path for it in copies if is_refused(crate.name, it, ran.stdout)]
    print(f"{crate.name}: {len(copies)} copies, {len(bad)} refused", *bad, sep="\n  ", flush=True)
    return not bad and ran.returncode in (0, 1)


def main(names: list[str]) -> int:
    rt = toolchain.load(*gate.NEEDED)
    if rt is None:
        print("This toolchain's parts have other names.")
        return 2
    os.chdir(Path(__file__).parent.parent)
    rt.Crate.cuts_libraries = True
    rt.Crate.allowed = rt.handles_of(os.getcwd())
    crates = [it for it in toolchain.crates_below(rt, os.getcwd()) if it.name in names]
    return 0 if all([look_at(rt, it) for it in crates]) else 1


if __name__ == "__main__":
    sys.exit(main(sys.argv[1:]))
