"""The files of a journal, and their lines as they grow.

A file of a journal is named by the serial of its first line, in twelve digits, and is never
renamed: so the names sort as the lines do.

    town.journal.000000000001
    town.journal.000000001201

Only the last of them grows. A path with or without such a number names all of them, and so does
`town.journal`, a file without a number, which is the first if it is there.
"""

import contextlib
import hashlib
import os
import re
import shlex
import time
from collections.abc import Iterator
from dataclasses import dataclass
from pathlib import Path
from typing import BinaryIO

from journal_lines import MOST_OF_LINE, NO_LINES, Fault, Line, SourceAway, whole_line

NUMBERED = re.compile(r"(.+)\.([0-9]{12,})")
# In seconds: between two reads of a file that may have grown.
POLL_SECONDS = 0.05


@dataclass(frozen=True)
class Part:
    """A file of a journal, and the serial in its name; 0 if its name has none."""

    first: int
    path: Path

    @classmethod
    def of(cls, path: Path) -> "Part":
        found = NUMBERED.fullmatch(path.name)
        return cls(int(found[2]) if found else 0, path)


def family_of(path: Path) -> Path:
    """The path that the files of a journal share, by that of one of them."""
    found = NUMBERED.fullmatch(path.name)
    return path.with_name(found[1]) if found else path


def part_from(path: Path, serial: int) -> Path:
    """The path of the file that begins with a serial, by the path of its journal."""
    family = family_of(path)
    return family.with_name(f"{family.name}.{serial:012}")


def parts_of(path: Path) -> list[Part]:
    """The files of a journal in order of serials; the path itself if it has none."""
    family = family_of(path)
    try:
        parts = [Part.of(it) for it in family.parent.iterdir() if family_of(it) == family]
    except OSError as error:
        raise SourceAway(str(error)) from error
    there = [part for part in parts if part.path.is_file()]
    return sorted(there, key=lambda part: part.first) or [Part.of(path)]


def parts_with(path: Path, serial: int) -> list[Part]:
    """The files of a journal from the one on that has a serial, or would have it."""
    parts = parts_of(path)
    before = [at for at, part in enumerate(parts) if part.first <= serial]
    return parts[before[-1] if before else 0 :]


class JournalFiles:
    """The files of a journal that a server writes, as one source of lines. They are read from the
    last whole line on that was read before, and again if an earlier line is requested.

    If a file is another one than before, or shorter, that is `SourceAway` once, so that whoever
    reads it compares what is there with what was read.
    """

    def __init__(self, path: Path) -> None:
        self.path = path
        # Which file was read, with its device and inode. How far: the serial, and the bytes.
        self.part: Part | None = None
        self.identity: tuple[int, int] | None = None
        self.serial = self.offset = 0

    def behind(self, serial: int) -> Iterator[Line]:
        if serial < self.serial:
            self.part = None
        try:
            # A file was complete when a later one was there, so they are listed before each read.
            first, *later = parts_with(self.path, serial + 1)
            yield from self.lines(first, serial)
            for part in later:
                if 0 < self.serial < part.first - 1:
                    raise Fault("lines_missing", self.serial + 1, part.first - 1)
                yield from self.lines(part, max(serial, self.serial))
        except OSError as error:
            raise SourceAway(str(error)) from error

    def lines(self, part: Part, serial: int) -> Iterator[Line]:
        """The whole lines of a file that are after a serial, from where it was read before. Their
        serials are in a row, from that in its name on."""
        with part.path.open("rb") as file:
            self.seek(file, part)
            begun = self.offset > 0 or part.first > 0
            while (found := whole_line(file, self.serial + 1)) is not None:
                line = Line.of(found, self.serial + 1)
                if begun and line.serial != self.serial + 1:
                    raise Fault("bad_line", self.serial + 1)
                if line.serial > serial:
                    yield line
                self.serial, self.offset = line.serial, self.offset + len(found) + 1
                begun = True

    def seek(self, file: BinaryIO, part: Part) -> None:
        """Puts a file at where to go on, which is its beginning if another was read before."""
        status = os.fstat(file.fileno())
        identity = (status.st_dev, status.st_ino)
        if part != self.part:
            self.part, self.serial, self.offset = part, max(0, part.first - 1), 0
        elif identity != self.identity or status.st_size < self.offset:
            self.part = None
            raise SourceAway(f"{part.path} is another file, or shorter than before")
        self.identity = identity
        file.seek(self.offset)

    def digest_at(self, serial: int) -> bytes | None:
        # All lines are read, at the start of a script, so little is done with each.
        last, digest = 0, NO_LINES
        try:
            for part in parts_of(self.path):
                with part.path.open("rb") as file:
                    for line in file:
                        if last == serial:
                            return digest
                        number = int(line.partition(b"\t")[0] or b"0")
                        if number > last + 1 or not line.endswith(b"\n"):
                            return None
                        if number > last:
                            last, digest = number, hashlib.sha256(digest + line).digest()
        except OSError as error:
            raise SourceAway(str(error)) from error
        except ValueError as error:
            raise Fault("bad_line", last + 1) from error
        return digest if last == serial else None

    def wait(self) -> None:
        time.sleep(POLL_SECONDS)

    def words(self, serial: int) -> str:
        path = parts_with(self.path, serial)[0].path
        return f"sed -n '/^{serial}\\t/{{p;q}}' {shlex.quote(str(path))}"


@dataclass(frozen=True)
class Ending:
    """The last whole line of a file, if it has one, and whether the file ends with that line."""

    line: Line | None
    is_whole: bool


def ending_of(path: Path) -> Ending:
    """How a file of a journal ends; one that is not there has no line. Ends as `SourceAway` if it
    cannot be read."""
    try:
        with path.open("rb") as file:
            last, is_whole = last_whole_line(file, path)
    except FileNotFoundError:
        return Ending(None, is_whole=True)
    except OSError as error:
        raise SourceAway(str(error)) from error
    return Ending(None if last is None else Line.of(last, path), is_whole)


def last_whole_line(file: BinaryIO, path: Path) -> tuple[bytes | None, bool]:
    """The last whole line of an open file, which is among its last two lines of the most bytes; and
    whether nothing follows it."""
    size = os.fstat(file.fileno()).st_size
    file.seek(max(0, size - 2 * (MOST_OF_LINE + 1)))
    if file.tell():
        file.readline()
    last, end = None, file.tell()
    while (found := whole_line(file, path)) is not None:
        last, end = found, file.tell()
    return last, end >= size


def last_line(path: Path) -> Line | None:
    """The last whole line of a journal; none if it has none, or is not there."""
    for part in reversed(parts_of(path)):
        if (line := ending_of(part.path).line) is not None:
            return line
    return None


def last_serial(path: Path) -> int:
    """The last serial of a journal; 0 if it has none. If a line at its end is none, the first such
    line of all is named, in place of its file."""
    try:
        line = last_line(path)
    except Fault:
        for _ in JournalFiles(path).behind(0):
            pass
        raise
    return line.serial if line else 0


def replace_file(path: Path, text: str) -> None:
    """Replaces a file as a whole, with the rights that it has, or makes it. What is there after a
    power cut is the old text or the new one."""
    beside = path.with_name(f".{path.name}.new")
    with beside.open("w") as file:
        with contextlib.suppress(FileNotFoundError):
            status, made = path.stat(), os.fstat(file.fileno())
            os.fchmod(file.fileno(), status.st_mode & 0o7777)
            # A unit must not call this (SystemCallFilter=), and its files are its own.
            if (status.st_uid, status.st_gid) != (made.st_uid, made.st_gid):
                os.fchown(file.fileno(), status.st_uid, status.st_gid)
        file.write(text)
        file.flush()
        os.fsync(file.fileno())
    beside.replace(path)
    synchronise(path.parent)


def synchronise(path: Path) -> None:
    """Has a file, or the names in a folder, kept through a power cut."""
    opened = os.open(path, os.O_RDONLY)
    try:
        os.fsync(opened)
    finally:
        os.close(opened)
