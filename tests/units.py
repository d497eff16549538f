"""Units of systemd as the tests start them, without systemd."""

import re
import shlex
from pathlib import Path


def unit_lines(unit: Path) -> dict[str, list[str]]:
    """The settings of a unit, with the values of each in order."""
    settings: dict[str, list[str]] = {}
    for line in unit.read_text().replace("\\\n", " ").splitlines():
        name, equals, value = line.partition("=")
        if equals and not line.startswith("#"):
            settings.setdefault(name, []).append(value)
    return settings


def started(unit: Path, settings: str) -> list[str]:
    """The arguments that a unit starts for the file `town`, as systemd reads its line: values of
    settings in the place of their names, those of a `$NAME` as several words, and one dollar for
    two."""
    (line,) = unit_lines(unit)["ExecStart"]
    given = dict(re.findall(r"(?m)^([A-Z_]+)=(.*)$", settings))
    filled = re.compile(r"(?<!\$)\$\{([A-Z_]+)\}")
    words = []
    for word in shlex.split(line):
        if re.fullmatch(r"\$[A-Z_]+", word):
            words += given[word[1:]].split()
        else:
            words.append(filled.sub(lambda it: str(given[it[1]]), word))
    words = [word.replace("%i", "town").replace("$$", "$") for word in words]
    return ["env", *(f"{name}={value}" for name, value in given.items()), *words]


def stop_commands(unit: Path, status: int) -> list[str]:
    """The commands of a shell that a unit of the file `town` runs once its program has ended with a
    status."""
    lines = [line.lstrip("-+") for line in unit_lines(unit)["ExecStopPost"]]
    lines = [line.replace("%i", "town").replace("$$", "$") for line in lines]
    return [f"export EXIT_STATUS={status}; {line}" for line in lines]
