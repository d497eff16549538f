"""In which order the gate proves crates and tries wrong bodies, and how many at once."""

import contextlib
import os
from collections.abc import Callable
from concurrent.futures import FIRST_COMPLETED, Future, ThreadPoolExecutor, wait
from pathlib import Path
from types import ModuleType
from typing import Any

LANES = int(os.environ.get("RT_JOBS") or len(os.sched_getaffinity(0)))
# In how many processes crates are proved for which nearly all others wait, and the last ones, when
# few others are left.
PROCESSES = {
    "streetmap_grid": 2,
    "streetmap_geojson": 2,
    "streetmap_feature_text": 2,
    "streetmap_batch": 3,
    "streetmap_ledger": 2,
    "streetmap_store": 2,
    "streetmap": 3,
}


def is_of_wrong_bodies(key: tuple[Any, ...]) -> bool:
    return key[1] in ("edits", "seed")


def room_for(key: tuple[Any, ...], running: dict[tuple[Any, ...], int]) -> int:
    """How many processes a task may take beside those that run with so many: none where it has to
    wait. A proof does not wait for checks of wrong bodies, which take minutes and give way: it may
    have one process, and more up to two beyond the lanes."""
    beside = [it for it in running if is_of_wrong_bodies(key) or not is_of_wrong_bodies(it)]
    free = LANES + 2 - sum(running.values())
    if not is_of_wrong_bodies(key):
        free = max(free, 1)
    wanted = PROCESSES.get(key[0], 1) if key[1] == "proof" and LANES >= 4 else 1
    return min(wanted, free) if len(beside) < LANES else 0


def in_order(tasks: dict[Any, Any]) -> list[Any]:
    """Proofs before checks of wrong bodies. Of proofs first what has the longest chain of others
    behind it, by lines; of crates with wrong bodies first those whose checks take long, which have
    many and use many crates. A task comes after those that it waits for."""
    behind = dict.fromkeys(tasks, 0)
    for key in reversed([*tasks]):
        behind[key] += tasks[key][1]
        for below in tasks[key][0]:
            behind[below] = max(behind[below], behind[key])

    def rank(key: tuple[Any, ...]) -> int:
        if not is_of_wrong_bodies(key):
            return int(behind[key])
        many = len([*Path("crates", key[0], "must-fail").glob("*.edit")])
        proof = tasks.get((key[0], "proof"))
        return many * len(proof[0]) if proof else 0

    return sorted(tasks, key=lambda it: (is_of_wrong_bodies(it), -rank(it)))


def in_lanes_by(rt: ModuleType) -> Callable[..., Any]:
    """What stands for `in_lanes` of `rt ci`, where it is said how many checks run at once. What
    wrong bodies begin with waits for the proof, and those of a crate are tried one after the other,
    since one check tries many. (An older `rt ci` has one task for all of a crate.)"""
    alone = rt.in_lanes
    ending = getattr(rt, "ending", contextlib.nullcontext)

    def in_lanes(tasks: dict[Any, Any]) -> Any:
        for key, (waits, *others) in tasks.items():
            if key[1] == "seed" and (key[0], "proof") in tasks:
                tasks[key] = ([*waits, (key[0], "proof")], *others)
            elif key[1] == "edits" and key[2:] > (0,):
                tasks[key] = ([*waits, (*key[:2], key[2] - 1)], *others)
        if "RT_JOBS" not in os.environ:
            return alone(tasks)
        left, given = in_order(tasks), dict[Any, Any]()
        running: dict[Any, int] = {}
        begun: dict[Future[Any], Any] = {}
        with ending(), ThreadPoolExecutor(LANES + 2) as pool:
            while left or running:
                for key in [it for it in left if all(below in given for below in tasks[it][0])]:
                    jobs = room_for(key, running)
                    if jobs > 0:
                        left.remove(key)
                        running[key] = jobs
                        begun[pool.submit(tasks[key][3], given, jobs)] = key
                for ended in wait(begun, return_when=FIRST_COMPLETED).done:
                    key = begun.pop(ended)
                    given[key] = ended.result()
                    del running[key]
        return given

    return in_lanes
