"""The Debian package of the gateway: its files, its unit, and what purging it leaves."""

import math
import re
import subprocess
from pathlib import Path

from gateway_tests.service import PYTHON, settings_text
from harness import Context

SECONDS = 240
# What `systemd-analyze security` may say of the unit: 0 is the best, 10 the worst.
MOST_EXPOSURE = 2.0
UNIT = "lib/systemd/system/streetmap-gateway@.service"
# Below the prefix, what both ways to install leave.
INSTALLED = """
share/streetmap/gateway/app.py
share/streetmap/gateway/openapi/reading.json
share/streetmap/gateway/static/map.js
share/streetmap/gateway/templates/items.html
share/doc/streetmap-gateway/CLIENTS.md
share/doc/streetmap-gateway/examples/gateway.toml
""".split()


def run(
    *words: str | Path, cwd: str | None = None, env: dict[str, str] | None = None
) -> subprocess.CompletedProcess[str]:
    given = list(map(str, words))
    return subprocess.run(
        given, capture_output=True, text=True, timeout=SECONDS, cwd=cwd, env=env, check=False
    )


def check_package(context: Context, package: Path, version: str) -> None:
    """It has the version of the server's package, and what the gateway needs to run."""
    tree = context.folder / "gateway"
    context.check("it is unpacked", run("dpkg-deb", "-x", package, tree).returncode, 0)
    found = run("dpkg-deb", "-f", package, "Version").stdout.strip()
    context.check("the version of the gateway's package", found, version)
    missing = [name for name in INSTALLED if not (tree / "usr" / name).is_file()]
    context.check("the gateway's package has all files", missing, [])
    ended = run("lintian", "--allow-root", "--fail-on", "error,warning", package)
    context.check("lintian", (ended.returncode, ended.stdout), (0, ""))
    check_unit(context, tree / UNIT)
    file = context.folder / "gateway.toml"
    file.write_text(settings_text("http://127.0.0.1:1", 1))
    seen = {"PYTHONPATH": str(tree / "usr/share/streetmap"), "PATH": "/usr/bin:/bin"}
    words = (PYTHON, "-m", "gateway.place", file, "--box", "0", "0", "1000", "1000")
    ended = run(*words, cwd="/", env=seen)
    context.check("it runs without the repository", (ended.returncode, ended.stderr), (0, ""))


def check_unit(context: Context, unit: Path) -> None:
    """The unit of the package is one, starts the gateway, and gives it little to reach."""
    started = "ExecStart=/usr/bin/python3 -m gateway %d/gateway.toml" in unit.read_text()
    context.check("its unit", started, True)
    ended = run("systemd-analyze", "verify", unit)
    context.check("systemd-analyze verify", (ended.returncode, ended.stderr), (0, ""))
    ended = run("systemd-analyze", "security", "--offline=true", unit)
    exposure = re.search(r"exposure level for \S+: ([0-9.]+)", ended.stdout)
    found = float(exposure[1]) if exposure else math.inf
    context.check(f"its exposure is {found}", found <= MOST_EXPOSURE, True)
