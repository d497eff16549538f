"""systemctl of a machine of a test: starts and stops streetmap@town by the line of its unit.

It is called as `systemctl.py MACHINE PROGRAM start|stop|restart|try-restart|is-active ..
streetmap@town`. Of other units, and by other commands, nothing is done.
The server goes on when this has ended; its process is named in a file of the machine. A file
`kill-at` names a command at which the caller is killed: after a stop, and before a start. While
a file `is-restarting` exists, the unit waits to be started again after a crash.
"""

import contextlib
import os
import re
import signal
import subprocess
import sys
import time
from pathlib import Path

sys.path.insert(0, str(Path(__file__).resolve().parents[1]))

from units import started  # noqa: E402

# A setting in the environment, whose paths are those of the machine already.
SETTING = re.compile("[A-Z_]+=")
UNIT = Path(__file__).resolve().parents[2] / "deploy" / "streetmap@.service"


def began(process: int) -> str | None:
    """When a process began, in ticks since the machine did; none if it has ended. With its number
    this names it, as another process may have the number later."""
    with contextlib.suppress(OSError):
        fields = Path(f"/proc/{process}/stat").read_text().rpartition(")")[2].split()
        return fields[19] if fields[0] != "Z" else None
    return None


def active(machine: Path) -> int | None:
    """The process of the unit, if it runs."""
    with contextlib.suppress(OSError, ValueError):
        process, begin = (machine / "unit.pid").read_text().split()
        return int(process) if began(int(process)) == begin else None
    return None


def start(machine: Path, program: str) -> None:
    settings = (machine / "etc" / "streetmap" / "town.conf").read_text()
    places = {"/usr/bin/streetmap": program, "/var/lib/": f"{machine}/var/lib/"}
    words = started(UNIT, settings)
    for old, new in places.items():
        words = [word if SETTING.match(word) else word.replace(old, new) for word in words]
    with (machine / "unit.log").open("ab") as log:
        process = subprocess.Popen(words, stdout=log, stderr=log, start_new_session=True)
    (machine / "unit.pid").write_text(f"{process.pid} {began(process.pid)}")


def stop(machine: Path) -> None:
    process = active(machine)
    if process is None:
        return
    os.kill(process, signal.SIGTERM)
    while active(machine) is not None:
        time.sleep(0.005)


def kill_caller(machine: Path, command: str) -> None:
    """Kills the process that has called this, once, if that is requested at this command."""
    asked = machine / "kill-at"
    if asked.exists() and asked.read_text() == command:
        asked.unlink()
        os.kill(os.getppid(), signal.SIGKILL)
        sys.exit(1)


def main() -> int:
    machine, program, command, *_ = sys.argv[1:]
    folder = Path(machine)
    with (folder / "systemctl.log").open("a") as log:
        log.write(f"{command}\n")
    if command == "is-active":
        waits = (folder / "is-restarting").exists()
        if "--quiet" not in sys.argv:
            print("activating" if waits else "active" if active(folder) else "inactive")
        return 0 if active(folder) else 3
    if command == "try-restart" and active(folder) is not None:
        command = "restart"
    if command in ("stop", "restart"):
        stop(folder)
    kill_caller(folder, command)
    if command in ("start", "restart") and active(folder) is None:
        start(folder, program)
    return 0


if __name__ == "__main__":
    sys.exit(main())
