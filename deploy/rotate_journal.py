#!/usr/bin/python3 -B
"""Begins a new file of the journal that streetmap@NAME writes.

    streetmap-rotate-journal NAME [--settings FOLDER] [--state FOLDER]

It stops the unit, reads the last serial N of the file that JOURNAL names, puts the name of the next
file and N into JOURNAL and JOURNAL_AFTER of /etc/streetmap/NAME.conf, and starts the unit. The next
file is named by the serial N + 1. No file is renamed, and no other setting changes. A unit that
does not run stays stopped, and writes the next file once it is started. If the file has no line
yet, nothing changes: so a repeat does no harm.

The settings are replaced as a whole, once the lines before are synchronised. If it is killed, the
unit has the old settings or the new ones, and the same command again goes on and starts the unit.

It ends with status 1, and the unit goes on with its old file, at what a person has to examine:

    no_settings FILE        the file does not exist; bad_settings NAME: that setting is wrong
    cut_line FILE           its last line is cut: the unit completes it as it starts
    bad_line FILE           a line of it is none
    exists FILE             the next file is there
    busy NAME               it runs already

Status 2 is `usage`. Status 3 is `not_written FILE`, or `not_done COMMAND` if systemctl fails.
"""

import argparse
import contextlib
import fcntl
import re
import signal
import subprocess
import sys
from collections.abc import Iterator
from dataclasses import dataclass
from pathlib import Path

from journal_files import Ending, ending_of, part_from, replace_file, synchronise
from journal_lines import Fault, SourceAway, end

NAME = "streetmap-rotate-journal"
JOURNAL = re.compile(r"""(?m)^JOURNAL=(["']?)(.*?)\1[ \t]*$""")
# What systemctl calls a unit that is down and stays so.
DOWN = ("inactive", "failed", "unknown", "")
WORDS_SAY_WHERE = "take --journal-after out of it: JOURNAL_AFTER has that serial"


@dataclass(frozen=True)
class Settings:
    """The settings of a unit, of which the last line of a name counts."""

    path: Path
    text: str

    @classmethod
    def read(cls, path: Path) -> "Settings":
        try:
            # A name that leads to the file stays what it is.
            path = path.resolve(strict=True)
            return cls(path, path.read_text())
        except (OSError, ValueError) as error:
            raise Fault("no_settings", path, more=(str(error),)) from error

    def value(self, name: str) -> str:
        found: list[str] = re.findall(rf"(?m)^{name}=(.*)$", self.text)
        return found[-1].strip() if found else ""

    def journal(self) -> Path:
        """The file that the unit writes."""
        found = JOURNAL.findall(self.text)
        if not found or not Path(found[-1][1]).is_absolute():
            raise Fault("bad_settings", "JOURNAL", more=("it names no file",))
        if "--journal-after" in self.value("JOURNAL_WORDS"):
            raise Fault("bad_settings", "JOURNAL_WORDS", more=(WORDS_SAY_WHERE,))
        return Path(found[-1][1])

    def writing(self, journal: Path, after: int) -> str:
        """The text of settings by which another file is written, after a serial."""
        begun = JOURNAL.sub(lambda it: f"JOURNAL={it[1]}{journal}{it[1]}", self.text)
        without = re.sub(r"(?m)^JOURNAL_AFTER=.*\n?", "", begun)
        return re.sub(r"(?m)^(JOURNAL=.*)$", rf"\1\nJOURNAL_AFTER={after}", without)


def systemctl(*words: str) -> None:
    command = ["systemctl", *words]
    if subprocess.run(command, check=False).returncode != 0:
        raise Fault("not_done", *command, status=3)


@dataclass(frozen=True)
class Unit:
    """A unit of systemd. A file `stopped` is there while a rotation has stopped it, so that a
    rotation after one that was killed starts it."""

    name: str
    stopped: Path

    def is_up(self) -> bool:
        """Whether it runs, or is about to, as a unit that has crashed and is started again."""
        asked = ["systemctl", "is-active", self.name]
        said = subprocess.run(asked, stdout=subprocess.PIPE, text=True, check=False).stdout
        return said.strip() not in DOWN

    @contextlib.contextmanager
    def down(self) -> Iterator[None]:
        """The unit is stopped within the block, and is started after it if it ran before."""
        if not self.stopped.exists():
            if not self.is_up():
                yield
                return
            self.stopped.touch()
        try:
            systemctl("stop", self.name)
            yield
        finally:
            systemctl("start", self.name)
            self.stopped.unlink()


def checked_ending(journal: Path) -> Ending:
    """How the file ends that the unit writes."""
    try:
        return ending_of(journal)
    except SourceAway as away:
        raise Fault("not_read", journal, status=3, more=(str(away),)) from away


def rotate(settings: Settings) -> str:
    """Has the unit, which is stopped, begin a new file once it is started. Says what is done."""
    journal = settings.journal()
    ending = checked_ending(journal)
    if not ending.is_whole:
        raise Fault("cut_line", journal, more=("it is completed at the next start of the unit",))
    if ending.line is None:
        return f"{journal} has no line yet"
    following = part_from(journal, ending.line.serial + 1)
    if following.exists():
        raise Fault("exists", following)
    synchronise(journal)
    synchronise(journal.parent)
    replace_file(settings.path, settings.writing(following, ending.line.serial))
    return f"{following} begins after serial {ending.line.serial}"


@contextlib.contextmanager
def alone(lock: Path) -> Iterator[None]:
    """No other rotation of the same unit runs within the block."""
    with lock.open("w") as file:
        try:
            fcntl.flock(file, fcntl.LOCK_EX | fcntl.LOCK_NB)
        except BlockingIOError as error:
            raise Fault("busy", lock.stem) from error
        yield


def run(name: str, settings: Path, state: Path) -> str:
    path = settings / f"{name}.conf"
    unit = Unit(f"streetmap@{name}", state / f"{NAME}-{name}.stopped")
    try:
        with alone(state / f"{NAME}-{name}.lock"):
            journal = Settings.read(path).journal()
            if checked_ending(journal).line is None and not unit.stopped.exists():
                return f"{journal} has no line yet"
            with unit.down():
                return rotate(Settings.read(path))
    except OSError as error:
        raise Fault("not_written", error.filename or path, error.strerror, status=3) from error


def unit_name(text: str) -> str:
    if not re.fullmatch(r"[A-Za-z0-9:_.\\-]+", text):
        raise ValueError(text)
    return text


def main() -> int:
    words = argparse.ArgumentParser(prog=NAME, description=(__doc__ or "").splitlines()[0])
    words.add_argument("name", type=unit_name, help="the NAME of streetmap@NAME")
    words.add_argument("--settings", type=Path, default=Path("/etc/streetmap"))
    words.add_argument("--state", type=Path, default=Path("/run"))
    asked = words.parse_args()
    # Whatever ends it, but for a kill, the unit is started again.
    for number in (signal.SIGTERM, signal.SIGHUP):
        signal.signal(number, lambda *_: sys.exit(3))
    try:
        print(run(asked.name, asked.settings, asked.state))
    except Fault as fault:
        return end(NAME, fault)
    return 0


if __name__ == "__main__":
    sys.exit(main())
