"""The package on machines with a real systemd, by the commands of docs/OPERATING.md.

Two Debians in containers: one is installed, serves, is killed, rotates, is restored and gets nginx
in front; the other becomes its follower over PostgreSQL, and then the first. Nothing stands in for
systemctl, sudo, apt, nftables or PostgreSQL. Where no container can be had, it is skipped.
"""

import os
from pathlib import Path

from debian_packages import built_packages
from harness import Context
from machine_tests import first, following
from machine_tests.booted import booted, copy_of, fresh_debian, mask

PACKAGES = ("debhelper", "debootstrap", "dpkg-dev", "systemd-container")


def shared_folder(context: Context) -> str:
    """The option that gives both machines the folder of PostgreSQL's sockets: the first's database
    is that of the second, as a standby at its site would be."""
    folder = context.folder / "sockets"
    folder.mkdir()
    folder.chmod(0o1777)
    return f"--bind={folder}:/run/postgresql"


def check_machines(context: Context, debian: Path, package: Path) -> str | None:
    """Checks one machine and then two; or says why none can be had."""
    other, sockets = copy_of(debian, context.folder / "second"), shared_folder(context)
    mask(other, "postgresql")
    with booted(context, debian, "--private-network", sockets) as made:
        if made is None:
            return "systemd-nspawn boots none"
        first.check_served(made, package)
        first.check_restarts(made)
        first.check_journal(made)
        first.check_figures(made)
        first.check_nginx(made)
        first.check_units(made)
        following.check_stored(made)
        network = f"--network-namespace-path=/proc/{made.leader}/ns/net"
        with booted(context, other, network, sockets) as second:
            if second is None:
                return "systemd-nspawn boots no second"
            first.install(second, package)
            following.check_follower(made, second)
            following.check_promotion(made, second)
    return None


def run(context: Context) -> None:
    debian = context.folder / "first"
    reason = "that needs root" if os.geteuid() != 0 else fresh_debian(debian)
    if reason is None:
        package, _ = built_packages(context, context.folder / "packages")
        reason = check_machines(context, debian, package)
    if reason is not None:
        print(f"  skipped, machines with systemd: {reason}", flush=True)
