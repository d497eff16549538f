"""The toolchain's command `rt` as a Python module, for what its command line does not offer."""

import importlib.machinery
import importlib.util
import os
import shutil
from types import ModuleType
from typing import Any


def has(rt: ModuleType, *needed: str) -> bool:
    """Whether the command rt has all of these parts."""
    return all(hasattr(rt, name) for name in needed)


def load(*needed: str) -> ModuleType | None:
    """The command rt as a module, or None if it lacks one of these parts."""
    program = shutil.which("rt")
    if program is None:
        return None
    loader = importlib.machinery.SourceFileLoader("rt_command", os.path.realpath(program))
    spec = importlib.util.spec_from_loader("rt_command", loader)
    if spec is None:
        return None
    rt = importlib.util.module_from_spec(spec)
    loader.exec_module(rt)
    return rt if has(rt, *needed) else None


def crates_below(rt: ModuleType, root: str) -> list[Any]:
    """The repository's crates, the lowest first, each as the command rt proves it."""
    rt.rtlib.Crate = rt.Crate
    return sorted(rt.rtlib.crates_below(root), key=lambda it: len(it.below()))
