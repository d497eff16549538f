"""A Debian in a folder, booted in a container: its own systemd, its own network, no hardware.

Nothing is put in the place of a command: sudo, systemctl, apt, rsync and PostgreSQL are Debian's.
"""

import contextlib
import shutil
import subprocess
import time
from collections.abc import Iterator
from dataclasses import dataclass
from pathlib import Path

from harness import Context

# What an office's machine has beside Debian's base and what the package depends on.
PACKAGES = (
    *("curl", "dbus", "debconf", "libjs-leaflet", "nftables", "nginx", "openssl"),
    *("postgresql", "procps", "python3-prometheus-client", "python3-psycopg2", "rsync"),
    *("sudo", "systemd", "systemd-sysv"),
)
MIRROR = "http://deb.debian.org/debian"
# In seconds: for a machine to be up, and for what a unit does by itself.
BOOT_SECONDS, PATIENCE = 120, 60
HOSTNAME = "office"
SETTINGS = "/etc/streetmap/town.conf"


@dataclass
class Booted:
    """A machine that runs: its folder, and the first process in it."""

    context: Context
    folder: Path
    leader: int

    def path(self, name: str) -> Path:
        """What is at a path of the machine."""
        return self.folder / name.lstrip("/")

    def run(self, commands: str) -> subprocess.CompletedProcess[str]:
        """Runs commands as root, up to the first that fails."""
        entered = ["nsenter", "--target", str(self.leader), "--all"]
        return subprocess.run(
            [*entered, "sh", "-ec", f"cd /root\n{commands}"],
            stdin=subprocess.DEVNULL,
            capture_output=True,
            text=True,
            timeout=self.context.seconds,
            check=False,
        )

    def done(self, commands: str) -> str:
        """What commands print, which have to succeed."""
        ended = self.run(commands)
        what = " ".join(commands.split())[:90]
        errors = ended.stderr[-400:] if ended.returncode else ""
        self.context.check(what, (ended.returncode, errors), (0, ""))
        return ended.stdout

    def said(self, command: str) -> str:
        """What one command prints, whether it succeeds or not, without the last line feed."""
        return self.run(command).stdout.strip()

    def wait_until(self, what: str, command: str, wanted: str) -> None:
        """Waits until a command prints this."""
        end, found = time.monotonic() + PATIENCE, self.said(command)
        while found != wanted and time.monotonic() < end:
            time.sleep(0.2)
            found = self.said(command)
        self.context.check(what, found, wanted)

    def set(self, **settings: str) -> None:
        """Writes settings of the town, as an editor would."""
        path = self.path(SETTINGS)
        lines = path.read_text().splitlines()
        kept = [line for line in lines if line.partition("=")[0] not in settings]
        added = [f"{name}={value}" for name, value in settings.items()]
        path.write_text("\n".join([*kept, *added, ""]))


def fresh_debian(folder: Path) -> str | None:
    """Makes a Debian in the folder; or says why it could not."""
    words = ["debootstrap", "--variant=minbase", f"--include={','.join(PACKAGES)}"]
    made = subprocess.run(
        [*words, "bookworm", str(folder), MIRROR], capture_output=True, text=True, check=False
    )
    if made.returncode != 0:
        return made.stdout.strip().rpartition("\n")[2]
    (folder / "etc" / "hostname").write_text(f"{HOSTNAME}\n")
    (folder / "etc" / "hosts").write_text(f"127.0.0.1 localhost {HOSTNAME}\n")
    return None


def copy_of(debian: Path, folder: Path) -> Path:
    """A second machine like it."""
    subprocess.run(["cp", "--archive", "--reflink=auto", debian, folder], check=True)
    return folder


def mask(folder: Path, unit: str) -> None:
    """Has a machine that does not run start without a unit."""
    subprocess.run(["systemctl", f"--root={folder}", "mask", unit], check=True, capture_output=True)


def first_process(container: subprocess.Popen[bytes]) -> int | None:
    """The first process of a container, once there is one."""
    listed = Path(f"/proc/{container.pid}/task/{container.pid}/children")
    with contextlib.suppress(OSError, ValueError, IndexError):
        return int(listed.read_text().split()[0])
    return None


def state_of(leader: int) -> str:
    """What systemd says of itself."""
    entered = ["nsenter", "--target", str(leader), "--all", "systemctl", "is-system-running"]
    asked = subprocess.run(entered, capture_output=True, text=True, check=False)
    return asked.stdout.strip()


def leader_of(container: subprocess.Popen[bytes]) -> int | None:
    """The first process of a container whose system is up; none if it does not come up."""
    end = time.monotonic() + BOOT_SECONDS
    while container.poll() is None and time.monotonic() < end:
        leader = first_process(container)
        if leader and state_of(leader) in ("running", "degraded"):
            return leader
        time.sleep(0.2)
    return None


@contextlib.contextmanager
def booted(context: Context, folder: Path, *words: str) -> Iterator[Booted | None]:
    """A machine that runs within the block; none if no container can be had here."""
    program = shutil.which("systemd-nspawn") or "systemd-nspawn"
    command = [program, "--quiet", "--boot", "--register=no", "--keep-unit", *words]
    with (folder.parent / f"{folder.name}.log").open("wb") as log:
        container = subprocess.Popen(
            [*command, f"--directory={folder}"],
            stdin=subprocess.DEVNULL,
            stdout=log,
            stderr=log,
        )
    try:
        leader = leader_of(container)
        yield Booted(context, folder, leader) if leader else None
    finally:
        container.terminate()
        try:
            container.wait(30)
        except subprocess.TimeoutExpired:
            container.kill()
            container.wait()
