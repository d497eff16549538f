"""A machine in a folder: a town that is served as its unit would, and the commands of operators.

sudo, ssh, systemctl and streetmap-rotate-journal are names in a folder that is searched first.
sudo runs what it is given; ssh runs it on this machine, so that rsync talks to another rsync.
"""

import contextlib
import os
import socket
import subprocess
import time
from collections.abc import Iterator
from dataclasses import dataclass
from pathlib import Path

from operating_tests import systemctl
from harness import Context, free_port
from messages import Edit, answers_in, post, read_all
from model import compact

ROOT = Path(__file__).resolve().parents[2]
DEPLOY = ROOT / "deploy"
PYTHON = "/usr/bin/python3 -B"
# Folders of the documents, which are below that of the machine here.
PLACES = ("/var/lib/streetmap", "/etc/streetmap", "/srv/backup")
COMMANDS = {
    "chown": "",
    "sudo": 'case $1 in -u) shift 2 ;; esac\nexec "$@"',
    "ssh": 'shift\nexec sh -c "$*"',
    "streetmap": 'exec "{program}" "$@"',
    "systemctl": f'exec {PYTHON} "{systemctl.__file__}" "{{folder}}" "{{program}}" "$@"',
    "streetmap-rotate-journal": (
        f'exec {PYTHON} "{DEPLOY}/rotate_journal.py" "$@"'
        ' --settings "{folder}/etc/streetmap" --state "{folder}/run"'
    ),
}


@dataclass
class Machine:
    """The machine's folder, and the port at which its unit listens."""

    context: Context
    folder: Path
    port: int

    @classmethod
    def new(cls, context: Context, name: str) -> "Machine":
        """A machine with the settings of the package, on which nothing runs."""
        made = cls(context, context.folder / name, free_port())
        for place in (*PLACES, "/run", "/bin"):
            made.path(place).mkdir(parents=True)
        settings = (DEPLOY / "town.conf").read_text().replace("PORT=8080", f"PORT={made.port}")
        made.settings.write_text(settings)
        for command, script in COMMANDS.items():
            text = script.format(folder=made.folder, program=context.program)
            made.path(f"/bin/{command}").write_text(f"#!/bin/sh\n{text}\n")
            made.path(f"/bin/{command}").chmod(0o755)
        return made

    def path(self, name: str) -> Path:
        """What is at a path of the documents."""
        return self.folder / name.lstrip("/")

    @property
    def town(self) -> Path:
        return self.path("/var/lib/streetmap/town")

    @property
    def settings(self) -> Path:
        return self.path("/etc/streetmap/town.conf")

    def setting(self, name: str) -> str:
        lines = self.settings.read_text().splitlines()
        return "".join(it.partition("=")[2] for it in lines if it.startswith(f"{name}="))

    def journals(self) -> list[str]:
        """The names of the files of the journal."""
        return sorted(path.name for path in self.town.parent.glob("town.journal*"))

    def run(self, commands: str) -> subprocess.CompletedProcess[str]:
        """Runs commands of the documents, up to the first that fails."""
        commands = commands.replace("python3 /usr/share/streetmap/deploy", f"{PYTHON} {DEPLOY}")
        for place in PLACES:
            commands = commands.replace(place, str(self.path(place)))
        return self.run_here(commands)

    def run_here(self, commands: str) -> subprocess.CompletedProcess[str]:
        """Runs commands whose paths are those of the machine's folder."""
        path = f"{self.path('/bin')}:{os.environ['PATH']}"
        return subprocess.run(
            ["sh", "-ec", commands],
            cwd=self.folder,
            env=os.environ | {"PATH": path},
            capture_output=True,
            text=True,
            timeout=self.context.seconds,
            check=False,
        )

    def done(self, commands: str) -> str:
        """What commands print, which have to succeed and to complain of nothing."""
        ended = self.run(commands)
        what = " ".join(commands.split())[:90]
        self.context.check(what, (ended.returncode, ended.stderr), (0, ""))
        return ended.stdout

    def wait(self) -> None:
        """Waits until the unit listens."""
        end = time.monotonic() + self.context.seconds
        while time.monotonic() < end:
            with contextlib.suppress(OSError), socket.create_connection(("127.0.0.1", self.port)):
                return
            time.sleep(0.01)
        raise TimeoutError(f"the unit: {self.path('/unit.log').read_text()[-600:]}")

    def post(self, key: str, *edits: Edit) -> int:
        """The serial of a batch that the unit accepts."""
        self.wait()
        with socket.create_connection(("127.0.0.1", self.port), 60) as stream:
            stream.sendall(post(compact({"key": key, "edits": list(edits)})))
            stream.shutdown(socket.SHUT_WR)
            (answer,) = answers_in(read_all(stream))
        self.context.check(f"the batch {key}", answer.status, 200)
        return int(answer.json()["serial"])

    def is_active(self) -> bool:
        return systemctl.active(self.folder) is not None


@contextlib.contextmanager
def machine(context: Context, name: str) -> Iterator[Machine]:
    """A machine, whose unit is stopped after the block."""
    made = Machine.new(context, name)
    try:
        yield made
    finally:
        systemctl.stop(made.folder)
