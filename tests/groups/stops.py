"""Crashes at calls that write or synchronise the file: what opens again is whole.

A crash is before the call, within it, or loses what was never synchronised. The programs are
`create`; `pipe` on a stream of batches, one of them of 40 edits, with a page between them; `pipe`
as it opens the file that such a crash left; and `pipe` as it migrates a file of format 1.
What opens again is the state of a prefix of the batches that has each acknowledged one, and what
was being migrated has the rows of format 1 or of format 2, whole. The short form crashes at some
of the calls, the long one at each.
"""

import os
from collections import Counter
from collections.abc import Callable, Iterator
from dataclasses import dataclass
from pathlib import Path
from typing import Any

from harness import Context, Ended, Word
from messages import (
    batch,
    delete,
    feature,
    get,
    open_collection,
    point,
    put,
    whole_answers,
)
from sqlite_file import Rows, copy_file, forget, kept_rows, make_format_1, rows

PACKAGES = ("gcc", "libc6-dev")
STOPPED = 86
WAYS = ("before", "within", "lost")
# In the short form, one of N calls crashes: in all, and in opening what a crash left.
STRIDE, STRIDE_AGAIN = 7, 11


def dated(operation: str, collection: str, name: str, x: int, y: int) -> dict[str, Any]:
    return put(operation, collection, feature(name, point(x, y), {"when": "2024-05-01"}))


def opened(collection: str) -> dict[str, Any]:
    return open_collection(collection, time="when")


BATCHES = [
    batch("b1", [opened("lamps"), dated("insert", "lamps", "L1", 1, 2)]),
    batch("b2", [dated("insert", "lamps", f"L{at}", at, at) for at in (2, 3, 4)]),
    batch("b3", [dated("replace", "lamps", "L1", 5, 6)]),
    batch("b4", [opened("kerbs"), dated("insert", "kerbs", "K1", 9, 9), delete("lamps", "L2")]),
    batch("b5", [dated("insert", "kerbs", f"M{at}", at, -at) for at in range(40)]),
    batch("b6", [delete("kerbs", "K1")]),
]
LOOKS = b"".join(
    get(target)
    for target in (
        "/collections",
        "/collections/lamps/items?limit=1000",
        "/collections/kerbs/items?limit=1000",
    )
)
PAGE = get("/collections/lamps/items?bbox=0,0,9,9&limit=1")
# The number of batches of the stream before the page.
BEFORE_PAGE = 2


@dataclass
class Stopper:
    """Runs commands that crash at one of their calls."""

    context: Context
    library: Path

    def run(self, *words: Word, sent: bytes = b"", stop: int = 0, how: str = "") -> Ended:
        added = {"LD_PRELOAD": str(self.library), "STOP": str(stop), "HOW": how} if stop else {}
        return self.context.start(*words, sent=sent, env=os.environ | added)

    def seen(self, file: Path) -> bytes:
        """What is answered over a file, or why it is not opened."""
        ended = self.run("pipe", file, sent=LOOKS)
        return ended.stdout if ended.returncode == 0 else ended.stderr

    def stops(
        self, words: list[Word], sent: bytes, how: str, begin: Callable[[], Any], stride: int
    ) -> Iterator[tuple[int, Ended]]:
        """Runs that crash at one call each, each over what `begin` makes of the file; the
        last one meets no such call, and ends as without a crash."""
        step = 1 if self.context.slow else stride
        at = 1 + WAYS.index(how) % step
        while True:
            begin()
            ended = self.run(*words, sent=sent, stop=at, how=how)
            if ended.returncode != STOPPED:
                self.context.check(f"{words[0]} with no stop at {at}", ended.returncode, 0)
                return
            yield at, ended
            at += step


def check_create(stopper: Stopper, opening: bytes) -> None:
    """A crash of `create` leaves the opening state, or no file of ours."""
    path, counted = stopper.context.folder / "made", Counter[str]()
    for how in WAYS:
        stops = stopper.stops(["create", path], b"", how, lambda: forget(path), STRIDE)
        for at, _ in stops:
            found = stopper.seen(path)
            allowed = found in (opening, b"streetmap: not_ours\n")
            stopper.context.check(f"create, stopped {how} call {at}: {found!r}", allowed, True)
            counted["the opening state" if found == opening else "no tables"] += 1
    print(f"  create: {dict(counted)}")


def check_batches(stopper: Stopper, first: Path, states: list[bytes]) -> None:
    """Crashes within the stream, and then within the opening of what each of them left."""
    stream = b"".join([*BATCHES[:BEFORE_PAGE], PAGE, *BATCHES[BEFORE_PAGE:]])
    folder, counted = stopper.context.folder, Counter[str]()
    path, left = folder / "town", folder / "left"
    for how in WAYS:
        begin = lambda: copy_file(first, path)
        for at, ended in stopper.stops(["pipe", path], stream, how, begin, STRIDE):
            copy_file(path, left)
            what = f"the stream, stopped {how} call {at}"
            acknowledged = check_stopped_stream(stopper, what, ended)
            allowed = states[acknowledged : acknowledged + 2]
            counted["stops in the stream"] += 1
            counted["stops in opening again"] += check_openings(stopper, left, path, how, allowed)
            copy_file(left, path)
            found = stopper.seen(path)
            stopper.context.check(f"{what}: a state that may be", found in allowed, True)
            counted["with one batch more than acknowledged"] += found != allowed[0]
            check_sent_again(stopper, what, path, states[-1])
    print(f"  batches: {dict(counted)}")


def check_stopped_stream(stopper: Stopper, what: str, ended: Ended) -> int:
    """The number of batches that a crashed run has acknowledged."""
    answers = whole_answers(ended.stdout)
    statuses = [answer.status for answer in answers]
    stopper.context.check(f"{what}: statuses", statuses, [200] * len(answers))
    return len(answers) - (len(answers) > BEFORE_PAGE)


def check_openings(stopper: Stopper, left: Path, path: Path, how: str, allowed: list[bytes]) -> int:
    """Crashes within the opening of what a crash left; their number."""
    count = 0
    begin = lambda: copy_file(left, path)
    for at, _ in stopper.stops(["pipe", path], LOOKS, how, begin, STRIDE_AGAIN):
        count += 1
        what = f"opened again, stopped {how} call {at}"
        stopper.context.check(what, stopper.seen(path) in allowed, True)
    return count


def check_sent_again(stopper: Stopper, what: str, path: Path, last: bytes) -> None:
    """All batches sent again over what a crash left give their replies and the last state."""
    ended = stopper.run("pipe", path, sent=b"".join(BATCHES))
    serials = [answer.json()["serial"] for answer in whole_answers(ended.stdout)]
    stopper.context.check(f"{what}: sent again", serials, list(range(1, len(BATCHES) + 1)))
    stopper.context.check(f"{what}: the last state", stopper.seen(path) == last, True)


def rows_in(context: Context, source: Path) -> list[Rows]:
    """The rows of a file, which SQLite finds sound. It is read in a copy, which SQLite changes."""
    read = copy_file(source, context.folder / "read")
    context.check("integrity", rows(read, "PRAGMA integrity_check"), [("ok",)])
    return kept_rows(read)


def check_carrying(stopper: Stopper, new: Path) -> None:
    """Crashes within the opening of a file of format 1, made of one of format 2."""
    context, counted = stopper.context, Counter[str]()
    old, path = copy_file(new, context.folder / "old"), context.folder / "carried"
    make_format_1(old)
    rows_of_new, rows_of_old = rows_in(context, new), rows_in(context, old)
    wanted = stopper.seen(new)
    for how in WAYS:
        begin = lambda: copy_file(old, path)
        for at, _ in stopper.stops(["pipe", path], LOOKS, how, begin, STRIDE):
            what = f"carried over, stopped {how} call {at}"
            found = rows_in(context, path)
            context.check(f"{what}: whole", found in (rows_of_old, rows_of_new), True)
            counted["format 2" if found == rows_of_new else "format 1"] += 1
            context.check(f"{what}: the state", stopper.seen(path) == wanted, True)
            context.check(f"{what}: in the end", rows_in(context, path), rows_of_new)
    print(f"  a file of format 1: {dict(counted)}")


def run(context: Context) -> None:
    stopper = Stopper(context, context.shim("stop"))
    first, path = context.new_file("first"), context.folder / "whole"
    copy_file(first, path)
    states = [stopper.seen(first)]
    for sent in BATCHES:
        (answer,) = context.pipe(path, sent)
        context.check("a batch", answer.status, 200)
        states.append(stopper.seen(path))
    context.check("states that differ", len(set(states)), len(BATCHES) + 1)
    check_create(stopper, states[0])
    check_batches(stopper, first, states)
    check_carrying(stopper, path)
