"""What wrong bodies begin with: the checked proofs that the built crate holds."""

import json
import os
import shutil
import tempfile
import threading
from collections.abc import Callable
from pathlib import Path
from types import ModuleType
from typing import Any


def take_out(rlib: Path, folder: Path) -> bool:
    """Writes the checked modules that a built crate holds into a folder, a file each; returns
    whether it holds them. Its list has a line for each: the name, and where its bytes stand. Those
    whose name has a folder are parts of other crates."""
    archive, listed = rlib / "toolchain" / "checked.a", rlib / "toolchain" / "checked.json"
    if not archive.is_file() or not listed.is_file():
        return False
    held = archive.read_bytes()
    for line in listed.read_text(encoding="utf-8").splitlines():
        name, start, size = json.loads(line)
        if "/" not in name:
            (folder / f"{name}.oantt").write_bytes(held[start : start + size])
    return True


class Seeds:
    """The folders that wrong bodies begin with. No file of one is changed."""

    def __init__(self, rt: ModuleType) -> None:
        self.rt = rt
        self.guard = threading.Lock()
        self.names: list[str] = []
        self.folders: set[str] = set()

    def name_of_kept(self, crate: Any) -> str | None:
        """The name that the prover gives to a folder of checked modules."""
        with self.guard, tempfile.TemporaryDirectory(prefix="streetmap-name-") as room:
            if not self.names:
                self.rt.checked(crate, {}, ["--jobs", "1", "--only", ""], room)
                self.names.extend(os.listdir(room)[:1])
        return self.names[0] if self.names else None

    def make(self, crate: Any) -> str | None:
        """A new folder in whose folder `seed` are the proofs that the built crate holds, if it
        holds them."""
        name = self.name_of_kept(crate)
        if name is None:
            return None
        room = tempfile.mkdtemp(prefix=f"rt-edits-{os.getpid()}-")
        folder = Path(room, "seed", name)
        folder.mkdir(parents=True)
        try:
            if take_out(Path(crate.rlib), folder):
                self.folders.add(str(folder.parent))
                return room
        except (OSError, ValueError):
            pass
        shutil.rmtree(room, ignore_errors=True)
        return None


def seeded_by(rt: ModuleType, seeds: Seeds) -> Callable[..., str | None]:
    """What stands for `seeded` of `rt ci`: wrong bodies begin with the proofs that the built crate
    holds, and no check of the crate as it stands is made."""
    alone: Callable[..., str | None] = rt.seeded

    def seeded(crate: Any, flags: list[str], start: str | None = None) -> str | None:
        room = seeds.make(crate)
        if room is None:
            return alone(crate, flags, start)
        rt.SEEDS.append(room)
        return room

    return seeded


def must_fail_all_by(rt: ModuleType, seeds: Seeds) -> Callable[..., list[tuple[bool, str]]]:
    """What stands for `must_fail_all` of an older `rt ci`, which has no `seeded`: the same. What is
    not refused so is tried again from nothing, as there."""
    alone: Callable[..., list[tuple[bool, str]]] = rt.must_fail_all

    def must_fail_all(crate: Any, edits: list[str], flags: list[str]) -> list[tuple[bool, str]]:
        room = seeds.make(crate)
        if room is None:
            return alone(crate, edits, flags)
        try:
            tried = [rt.must_fail(crate, it, flags, f"{room}/seed") for it in edits]
        finally:
            shutil.rmtree(room, ignore_errors=True)
        return [it if it[0] else rt.must_fail(crate, edit, flags) for edit, it in zip(edits, tried)]

    return must_fail_all
