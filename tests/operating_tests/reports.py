"""What is reported of a unit that has failed: when, to whom, and how often."""

import os
import re
import shlex
import subprocess
from dataclasses import dataclass
from pathlib import Path

from harness import Context
from operating_tests.document import OPERATING
from operating_tests.machine import DEPLOY
from units import unit_lines

UNIT = "streetmap@town.service"
# The rule: N MB, and bytes a feature. What was measured: features, and MB.
RULE = re.compile(r"([0-9,]+)\s+MB\s+and\s+([0-9,]+)\s+bytes\s+a\s+feature")
MEASURED = re.compile(
    r"(?m)^\| ([0-9,]+0) \|(?: [0-9.,]+ \|){3} ([0-9,]+) \| [0-9.]+ \| [0-9.]+ \|$"
)
# Programs that note how they are called, and what they are sent.
NOTING = '#!/bin/sh\necho "{name} $*" >> {log}\n'
COMMANDS = {
    "systemctl": "echo Result=exit-code; echo NRestarts=2\n",
    "journalctl": "echo The last line of its log.\n",
    "logger": "",
    "sendmail": "sed 's/^/  /' >> {log}\n",
}
# How a unit has ended, as systemd says it, and whether it starts again and is reported for that.
# What stays down is reported by OnFailure.
ENDINGS = {
    ("success", "TERM"): False,
    ("exit-code", "1"): False,
    ("exit-code", "2"): False,
    ("exit-code", "3"): True,
    ("exit-code", "127"): True,
    ("signal", "SEGV"): True,
    ("oom-kill", "KILL"): True,
}


@dataclass(frozen=True)
class Noted:
    """A folder of programs that note their calls in a file of it."""

    context: Context
    folder: Path

    @classmethod
    def new(cls, context: Context) -> "Noted":
        made = cls(context, context.folder / "reports")
        made.folder.mkdir()
        for name, more in COMMANDS.items():
            path = made.folder / name
            path.write_text((NOTING + more).format(name=name, log=made.log))
            path.chmod(0o755)
        return made

    @property
    def log(self) -> Path:
        return self.folder / "calls"

    def calls(self, *words: str, **settings: str) -> list[str]:
        """The lines that the programs note while a command runs, which has to succeed."""
        self.log.write_text("")
        path = f"{self.folder}:{os.environ['PATH']}"
        given = os.environ | settings | {"PATH": path, "RUNTIME_DIRECTORY": str(self.folder)}
        ended = subprocess.run(words, env=given, capture_output=True, check=False)
        self.context.check(words[0], (ended.returncode, ended.stderr), (0, b""))
        return self.log.read_text().splitlines()


def check_endings(noted: Noted) -> None:
    """After which endings the unit reports that it starts again."""
    (line,) = unit_lines(DEPLOY / "streetmap@.service")["ExecStopPost"]
    line = line.removeprefix("-+").replace("$$", "$").replace("%n", UNIT)
    wanted = f"systemctl start --no-block streetmap-failed@{UNIT}.service"
    for (result, status), reports in ENDINGS.items():
        settings = {"SERVICE_RESULT": result, "EXIT_STATUS": status}
        calls = noted.calls(*shlex.split(line), **settings)
        noted.context.check(f"{result} {status}", calls, [wanted] if reports else [])


def check_reports(noted: Noted) -> None:
    """A line in the log each time; a mail if somebody is named, and not twice in an hour."""
    script, check = str(DEPLOY / "report_failure.sh"), noted.context.check
    line = f"{UNIT} has failed on {os.uname().nodename}: Result=exit-code NRestarts=2"
    asked = f"systemctl show --property=Result,ExecMainStatus,NRestarts {UNIT}"
    logged = [asked, f"logger --priority daemon.crit --tag streetmap-failed -- {line}"]
    check("nobody is mailed", noted.calls(script, UNIT, MAILTO=""), logged)
    mailed = noted.calls(script, UNIT, MAILTO="anna@example.org")
    check("the log, too", mailed[:2], logged)
    head = ["  To: anna@example.org", f"  Subject: {line.partition(':')[0]}", "  ", f"  {line}"]
    check("the mail", [it for it in mailed if it.startswith("  ")][:4], head)
    check("its end", mailed[-1], "  The last line of its log.")
    check("once an hour", noted.calls(script, UNIT, MAILTO="anna@example.org"), logged)
    other = noted.calls(script, "streetmap-journal@town.service", MAILTO="anna@example.org")
    check("another unit", len(other) > 2, True)
    old = (noted.folder / UNIT).stat().st_mtime - 3700
    os.utime(noted.folder / UNIT, (old, old))
    check("an hour later", len(noted.calls(script, UNIT, MAILTO="anna@example.org")) > 2, True)


def number_of(text: str) -> int:
    """The number that a document writes with commas."""
    return int(text.replace(",", ""))


def check_memory(context: Context) -> None:
    """The documented rule has room for what docs/SCALE.md has measured."""
    (rule,) = RULE.findall(OPERATING.read_text())
    base, each = map(number_of, rule)
    rows = MEASURED.findall(OPERATING.with_name("SCALE.md").read_text())
    context.check("what was measured", len(rows) > 3, True)
    for features, memory in rows:
        most = base + number_of(features) * each / 1_000_000
        context.check(f"memory of {features} features", number_of(memory) < most, True)


def check_failing(context: Context) -> None:
    noted = Noted.new(context)
    check_memory(context)
    check_endings(noted)
    check_reports(noted)
