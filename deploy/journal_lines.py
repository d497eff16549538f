"""The lines of a journal, and how the scripts beside it end.

A journal has a line for each accepted batch, in order of serials: the serial in decimal, a tab, the
batch text, a line feed (docs/API.md, "Batches out and in again"). The scripts of journals share
what is here.

The digests of a journal chain its lines: that of a line is the SHA-256 of the 32 bytes of the
digest before it, and then of the line with its line feed. Before the first line they are zeros. So
two journals with the same digest at a serial have the same lines up to it.

A script that ends by itself prints `NAME: CODE ..` on standard error. Its exit status is 0 if it
was to end (`--once`), 1 for what is the same at the next start, 2 for options it does not take, 3
if a file of its own cannot be written, and 4 if another machine has its lease (`fenced`).
"""

import argparse
import hashlib
import os
import re
import sys
import time
from collections.abc import Callable, Iterator
from dataclasses import dataclass
from pathlib import Path
from typing import BinaryIO, Protocol

# In bytes: a body of `POST /batches`, and a line of a journal without its line feed, at most.
MOST_OF_BODY = 8_388_608
MOST_OF_LINE = 16_777_216
# In seconds: the first pause before a thing that is away is tried again, and the longest.
FIRST_PAUSE, LONGEST_PAUSE = 0.05, 10.0

SERIAL = re.compile(rb"[1-9][0-9]{0,18}")
# A batch text ends with its key, which needs no escapes ("The batch text" and "Edits" of API.md).
KEY_AT_END = re.compile(rb'"key":"([A-Za-z0-9._:-]{1,64})"\}')
LONGEST_END = len(b'"key":""}') + 64
# The digest before the first line.
NO_LINES = bytes(32)


class Fault(Exception):
    """What ends a script: a code, and the words after it. `more` are lines that help."""

    def __init__(self, code: str, *words: object, status: int = 1, more: tuple[str, ...] = ()):
        super().__init__(" ".join([code, *map(str, words)]))
        self.status = status
        self.more = more


class Away(Exception):
    """A follower or a database that does not answer now. It is tried again."""


class SourceAway(Away):
    """A source that does not answer now, or is not the one that was read before."""


@dataclass(frozen=True)
class Line:
    """A line of a journal: the serial of a batch, and its text."""

    serial: int
    text: bytes

    @classmethod
    def of(cls, whole: bytes, where: object) -> "Line":
        """The line of these bytes, without their line feed. Ends as `bad_line` if they are
        none; `where` says which bytes they are."""
        serial, _, text = whole.partition(b"\t")
        if not SERIAL.fullmatch(serial) or KEY_AT_END.search(text[-LONGEST_END:]) is None:
            raise Fault("bad_line", where)
        return cls(int(serial), text)

    @property
    def key(self) -> str:
        """The key of the batch."""
        found = KEY_AT_END.search(self.text[-LONGEST_END:])
        if found is None:
            raise Fault("bad_line", self.serial)
        return found[1].decode()

    @property
    def whole(self) -> bytes:
        """Its bytes in a journal, with the line feed."""
        return b"%d\t%b\n" % (self.serial, self.text)

    def digest(self, before: bytes) -> bytes:
        """The digest of the lines up to this one, by that of those before it."""
        return hashlib.sha256(before + self.whole).digest()


class Source(Protocol):
    """Where lines come from. Both calls end as `SourceAway` if it does not answer."""

    def behind(self, serial: int) -> Iterator[Line]:
        """The lines after a serial that are present now, in order of serials."""

    def digest_at(self, serial: int) -> bytes | None:
        """The digest of the lines up to a serial; None if it does not have all of them."""

    def wait(self) -> None:
        """Returns once there may be more lines, or after a while."""

    def words(self, serial: int) -> str:
        """A command of a shell that prints the line of a serial."""


def whole_line(file: BinaryIO, where: object) -> bytes | None:
    """The next line of a file, without its line feed. None if it is not complete yet: it lacks its
    line feed, or it is the last and has a zero byte, as a power cut may leave. A zero byte with
    more after its line is `bad_line`; `where` says which line that is."""
    start = file.tell()
    found = file.readline(MOST_OF_LINE + 1)
    if len(found) > MOST_OF_LINE and not found.endswith(b"\n"):
        raise Fault("line_too_long", where)
    if b"\0" in found:
        if file.read(1) and is_still_there(file, start, found):
            raise Fault("bad_line", where)
        return None
    return found[:-1] if found.endswith(b"\n") else None


def is_still_there(file: BinaryIO, start: int, found: bytes) -> bool:
    """Whether a file still has these bytes, after which others follow. A server that starts may
    have replaced them meanwhile."""
    return os.pread(file.fileno(), len(found), start) == found


class Pauses:
    """Growing pauses between tries. What is away is said once, from the second try in a row on, and
    that it is back."""

    def __init__(self, name: str) -> None:
        self.name = name
        self.seconds = FIRST_PAUSE
        self.told = ""

    def wait(self, reason: str) -> None:
        if self.seconds > FIRST_PAUSE and reason != self.told:
            tell(self.name, f"away: {reason}")
            self.told = reason
        time.sleep(self.seconds)
        self.seconds = min(2 * self.seconds, LONGEST_PAUSE)

    def end(self) -> None:
        if self.told:
            tell(self.name, "back")
        self.seconds, self.told = FIRST_PAUSE, ""


def not_empty(text: str) -> str:
    """An argument of a command line that is not empty, as a setting may be that was forgotten."""
    if not text:
        raise ValueError(text)
    return text


def path_of(text: str) -> Path | None:
    """An argument that is a path; none if it is empty, as a setting may be."""
    return Path(text) if text else None


def town_of(text: str) -> str:
    """An argument that is a town's name in a database; an empty one is that of the only town."""
    if not re.fullmatch(r"([a-z][a-z0-9_]{0,39})?", text):
        raise argparse.ArgumentTypeError(f"{text} is no name of a, b .. z, digits and _")
    return text


def tell(name: str, line: str) -> None:
    """Writes a line on standard error."""
    print(f"{name}: {' '.join(line.split())}", file=sys.stderr, flush=True)


def end(name: str, fault: Fault) -> int:
    """Says what ends a script, and gives its exit status."""
    for line in (str(fault), *fault.more):
        print(f"{name}: {line}", file=sys.stderr, flush=True)
    return fault.status


def print_made(name: str, make: Callable[[], str]) -> int:
    """Prints what a script makes once; its exit status, which is 3 if a source is away."""
    try:
        print(make())
    except Fault as fault:
        return end(name, fault)
    except Away as away:
        return end(name, Fault("away", away, status=3))
    return 0
