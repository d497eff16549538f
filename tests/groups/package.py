"""make install, and the Debian packages: lintian, a fresh Debian, an upgrade, nginx, purging."""

import contextlib
import dataclasses
import os
import re
import shutil
import socket
import ssl
import subprocess
import time
import urllib.request
from collections.abc import Iterator
from dataclasses import dataclass
from pathlib import Path

from debian_packages import built_packages, output_of
from gateway_tests import packaging
from harness import Context, first_line, free_port
from messages import OPEN_LAMPS, batch, get
from operating_tests.document import commands_of
from units import started, unit_lines

PACKAGES = (
    "bash-completion",
    "debhelper",
    "debootstrap",
    "dpkg-dev",
    "libjs-leaflet",
    "lintian",
    "mandoc",
    "nginx",
    "openssl",
    "python3-aiohttp",
    "python3-httpx",
    "python3-lark",
    "python3-numpy",
    "python3-psycopg2",
    "python3-pydantic",
    "python3-pyproj",
    "python3-starlette",
    "strace",
    "systemd",
)
REPOSITORY = Path(__file__).resolve().parents[2]
UNIT = REPOSITORY / "deploy" / "streetmap@.service"
FOLLOWER_UNITS = [
    REPOSITORY / "deploy" / f"streetmap-{name}@.service" for name in ("follower", "journal")
]
TIMED_UNITS = [REPOSITORY / "deploy" / f"streetmap-{name}@.service" for name in ("audit", "backup")]
TIMERS = [unit.with_suffix(".timer") for unit in TIMED_UNITS]
REPORTING_UNIT = REPOSITORY / "deploy" / "streetmap-failed@.service"
EXPORTER_UNIT = REPOSITORY / "deploy" / "streetmap-exporter.service"
# What `systemd-analyze security` may say of the unit: 0 is the best, 10 the worst.
MOST_EXPOSURE = 2.0
# What enabling the unit for the file `town` makes.
ENABLED = "/etc/systemd/system/multi-user.target.wants/streetmap@town.service"
# Below the prefix, what both ways to install leave.
INSTALLED = """
bin/streetmap
share/bash-completion/completions/streetmap
share/doc/streetmap/README.md
share/doc/streetmap/docs/API.md
share/doc/streetmap/examples/town.json
sbin/streetmap-rotate-journal
share/streetmap/deploy/alerts.yml
share/streetmap/deploy/audit.sh
share/streetmap/deploy/dashboard.json
share/streetmap/deploy/exporter.py
share/streetmap/deploy/follow.py
share/streetmap/deploy/journal_changes.py
share/streetmap/deploy/journal_digest.py
share/streetmap/deploy/journal_files.py
share/streetmap/deploy/journal_lease.py
share/streetmap/deploy/journal_lines.py
share/streetmap/deploy/journal_mirror.py
share/streetmap/deploy/journal_table.py
share/streetmap/deploy/journal_tiles.py
share/streetmap/deploy/journal_to_postgres.py
share/streetmap/deploy/mirror_check.py
share/streetmap/deploy/postgis/acting.sql
share/streetmap/deploy/postgis/dropping.sql
share/streetmap/deploy/postgis/indexes.sql
share/streetmap/deploy/postgis/names.sql
share/streetmap/deploy/postgis/reading.sql
share/streetmap/deploy/postgis/tables.sql
share/streetmap/deploy/postgis/tiles.sql
share/streetmap/deploy/postgis/views.sql
share/streetmap/deploy/program.py
share/streetmap/deploy/report_failure.sh
share/streetmap/deploy/restore.py
""".split()
MANUALS = ["streetmap", "streetmap-rotate-journal"]
# A purge as a machine does it that nobody sits at.
PURGE = ("env", "DEBIAN_FRONTEND=noninteractive", "dpkg", "--purge", "streetmap")
# Words before the cursor, and what completes them.
COMPLETIONS = {
    "": "create pipe serve import export load batches apply check lines help",
    "ex": "export",
    "--": "--help --version",
    "help ch": "check",
    "serve town --c": "--count --clients --conditional --changes",
    "serve town --clients ": "1 64 1024",
    "pipe town --f": "--fenced --follower",
    "import town lamps.json --": "--key --collection --replace --progress --explain --help",
    "load town --s": "--scale --shift --skip",
    "load town --fractions ": "text",
    "load town --each ": "100 1000 10000",
    "batches town --": "--after --explain --help",
    "apply town --": "--explain --help",
    "check town --": "--replay --explain --help",
}
COMPLETE = """
. /usr/share/bash-completion/bash_completion
. "$1"
COMP_LINE="streetmap $2" COMP_POINT=${#COMP_LINE}
read -ra COMP_WORDS <<< "$COMP_LINE"
[ "${COMP_LINE% }" = "$COMP_LINE" ] || COMP_WORDS+=("")
COMP_CWORD=$((${#COMP_WORDS[@]} - 1))
_streetmap streetmap
echo "${COMPREPLY[*]}"
"""


def texts_that_name(text: str, folder: Path) -> list[Path]:
    """The files below a folder, beside programs, that contain a text."""
    files = [path for path in folder.rglob("*") if path.is_file() and path.parent.name != "bin"]
    return [path for path in files if text.encode() in path.read_bytes()]


def check_make_install(context: Context) -> None:
    folder = context.folder / "installed"
    words = ["make", "-C", str(REPOSITORY), "install", f"DESTDIR={folder}"]
    words.append(f"PROGRAM={context.program}")
    output_of(*words)
    prefix = folder / "usr" / "local"
    manuals = sorted((prefix / "share" / "man").rglob("*.[18]"))
    wanted = [*INSTALLED, *packaging.INSTALLED, packaging.UNIT]
    missing = [name for name in wanted if not (prefix / name).is_file()]
    context.check("make install leaves all files", missing, [])
    context.check("the program", (prefix / "bin" / "streetmap").stat().st_mode & 0o777, 0o755)
    context.check("no file names the repository", texts_that_name(str(REPOSITORY), folder), [])
    units = prefix / "lib" / "systemd" / "system"
    (line,) = unit_lines(units / "streetmap@.service")["ExecStart"]
    context.check("its program", "exec /usr/local/bin/streetmap serve" in line, True)
    for path in (*FOLLOWER_UNITS, EXPORTER_UNIT):
        script = Path(unit_lines(units / path.name)["ExecStart"][0].split()[2])
        context.check(
            f"the script of {path.name}", (folder / script.relative_to("/")).is_file(), True
        )
    for unit in (REPORTING_UNIT, TIMED_UNITS[0]):
        line, *_ = unit_lines(units / unit.name)["ExecStart"]
        script = folder / line.split()[0].lstrip("/")
        context.check(f"the script of {unit.name}", os.access(script, os.X_OK), True)
    there = [(units / timer.name).is_file() for timer in TIMERS]
    context.check("the timers", there, [True, True])
    context.check("the manual pages", [path.stem for path in manuals], MANUALS)
    linted = output_of("mandoc", "-T", "lint", "-W", "warning", *manuals)
    context.check("their form", linted, "")
    rotated = output_of(prefix / "sbin" / "streetmap-rotate-journal", "--help")
    context.check("a script of sbin", rotated[:36], "usage: streetmap-rotate-journal [-h]")
    settings = folder / "etc" / "streetmap" / "town.conf"
    settings.write_text("PORT=1\n")
    output_of(*words)
    context.check("settings stay", settings.read_text(), "PORT=1\n")


def check_completion(context: Context) -> None:
    script = REPOSITORY / "packaging" / "completion" / "streetmap.bash"
    for begun, wanted in COMPLETIONS.items():
        offered = output_of("bash", "-c", COMPLETE, "bash", script, begun).strip()
        context.check(f"completion of {begun!r}", offered, wanted)


def system_calls(name: str) -> set[str]:
    """The calls of one of systemd's sets, with those of the sets within it."""
    lines = output_of("systemd-analyze", "syscall-filter", name).splitlines()[1:]
    calls = {line.strip() for line in lines} - {""}
    within = {call for call in calls if call.startswith("@")}
    named = {call for call in calls if not call.startswith(("@", "#"))}
    return named.union(*map(system_calls, within))


def allowed_calls(unit: Path) -> set[str]:
    """The system calls that the filters of a unit allow."""
    allowed: set[str] = set()
    for filters in unit_lines(unit)["SystemCallFilter"]:
        calls = set[str]().union(*map(system_calls, filters.removeprefix("~").split()))
        allowed = allowed - calls if filters.startswith("~") else allowed | calls
    return allowed


def check_exposure(context: Context) -> None:
    for unit in (UNIT, *FOLLOWER_UNITS, *TIMED_UNITS, EXPORTER_UNIT):
        analysed = output_of("systemd-analyze", "security", "--offline=true", unit)
        exposure = re.search(r"exposure level for \S+: ([0-9.]+)", analysed)
        assert exposure is not None
        context.check(f"exposure of {unit.name}", float(exposure[1]) <= MOST_EXPOSURE, True)


def check_verified(context: Context) -> None:
    """systemd knows each setting of the units."""
    folder = context.folder / "verified"
    folder.mkdir()
    for unit in (UNIT, *FOLLOWER_UNITS, *TIMED_UNITS, *TIMERS, REPORTING_UNIT, EXPORTER_UNIT):
        text = unit.read_text().replace("/usr/share/streetmap", str(REPOSITORY))
        (folder / unit.name).write_text(text)
    for unit in sorted(folder.iterdir()):
        words = ["systemd-analyze", "verify", "--man=no", str(unit)]
        ended = subprocess.run(words, capture_output=True, text=True, check=False)
        context.check(f"{unit.name} is verified", (ended.returncode, ended.stderr), (0, ""))


def check_words(context: Context) -> None:
    """The arguments of the program, with a journal and with an empty or a missing one."""
    settings = (REPOSITORY / "deploy" / "town.conf").read_text()
    without = "serve /var/lib/streetmap/town --port 8080 --clients 64 --base http://localhost:8080/"
    tags, status, path = "--conditional", "--status", "/var/lib/streetmap/town journal"
    both = [tags, status]
    rows: tuple[tuple[str, str, str, list[str]], ...] = (
        ("an empty journal", "", "", both),
        ("a log, a warm start", "LOG=\nWARM=\n", "LOG=yes\nWARM=1\n", ["--log", "--warm", *both]),
        ("settings before LOG and WARM", "LOG=\nWARM=\n", "\n", both),
        ("no tags", "CONDITIONAL=yes\n", "CONDITIONAL=\n", [status]),
        ("settings before tags", "CONDITIONAL=yes\n", "\n", [status]),
        ("changes", "CHANGES=\n", "CHANGES=yes\n", [tags, "--changes", status]),
        ("settings before changes", "CHANGES=\n", "\n", both),
        ("no status", "STATUS=yes\n", "STATUS=\n", [tags]),
        ("settings before the status", "STATUS=yes\n", "\n", [tags]),
        ("a fenced server", "FENCED=\n", "FENCED=yes\n", [*both, "--fenced"]),
        ("settings before it", "FENCED=\n", "\n", both),
        ("a token", "FOLLOWER_TOKEN=\n", "FOLLOWER_TOKEN=/t k\n", [*both, "--follower", "/t k"]),
        ("settings before tokens", "FOLLOWER_TOKEN=\n", "\n", both),
        ("both", "FOLLOWER_TOKEN=\n", "FOLLOWER_TOKEN=/t\nFENCED=1\n", [*both, "--fenced"]),
        ("a missing journal", "JOURNAL=\n", "\n", both),
        ("a journal", "JOURNAL=\n", f"JOURNAL={path}\n", [*both, "--journal", path]),
        (
            "words of a journal",
            "JOURNAL=\nJOURNAL_AFTER=\nJOURNAL_WORDS=\n",
            f"JOURNAL={path}\nJOURNAL_AFTER=7\nJOURNAL_WORDS=--journal-sync\n",
            [
                *both,
                *("--journal", path, "--journal-after", "7"),
                "--journal-sync",
            ],
        ),
        (
            "older settings of a journal",
            "JOURNAL=\nJOURNAL_AFTER=\n",
            f"JOURNAL={path}\n",
            [*both, "--journal", path],
        ),
    )
    for what, old, new, wanted in rows:
        context.check(f"{what}: the settings", old in settings, True)
        words = started(UNIT, settings.replace(old, new))
        words = [word.replace("exec /usr/bin/streetmap", "printf '%s\\n'") for word in words]
        context.check(what, output_of(*words).splitlines(), [*without.split(), *wanted])


def check_unit(context: Context) -> None:
    check_exposure(context)
    check_verified(context)
    check_words(context)
    trace = context.folder / "trace"
    traced = context.folder / "traced"
    # The unit's shell is the program then, so its calls count too.
    shell = '/bin/sh -c \'exec "$0" "$@"\''
    words = f'strace -f -qq -o "{trace}" {shell} "{context.program}" "$@"'
    traced.write_text(f"#!/bin/sh\nexec {words}\n")
    traced.chmod(0o755)
    file = context.new_file("traced.db", batch("b1", [OPEN_LAMPS]))
    under_trace = dataclasses.replace(context, program=traced)
    with under_trace.serve(file, "--clients", "8", "--count", "1") as server:
        answers = server.ask(batch("b2", []) + get("/collections/lamps/items"))
        server.ends()
    context.check("answers under a trace", [answer.status for answer in answers], [200, 200])
    made = set(re.findall(r"^\d+ +(\w+)\(", trace.read_text(), re.MULTILINE)) - {"execve"}
    context.check("calls that the unit forbids", made - allowed_calls(UNIT), set())


def code_of(program: Path, copy: Path) -> bytes:
    """The machine code of a program."""
    output_of("objcopy", "-O", "binary", "--only-section=.text", program, copy)
    return copy.read_bytes()


def check_package(context: Context, package: Path) -> None:
    folder = context.folder / "unpacked"
    output_of("dpkg-deb", "-x", package, folder)
    missing = [name for name in INSTALLED if not (folder / "usr" / name).is_file()]
    context.check("the package has all files", missing, [])
    context.check("no file names the repository", texts_that_name(str(REPOSITORY), folder), [])
    settings = output_of("dpkg-deb", "-I", package, "conffiles").split()
    found = [*(folder / "etc").rglob("*.conf"), folder / "etc" / "default" / "streetmap"]
    files = {f"/{path.relative_to(folder)}" for path in found}
    context.check("settings are marked as such", files <= set(settings), True)
    depends = output_of("dpkg-deb", "-f", package, "Depends")
    context.check("it names its libraries", "libc6 (>=" in depends, True)
    copy = context.folder / "code"
    code = code_of(context.program, copy)
    context.check("its code is the program's", code_of(folder / "usr/bin/streetmap", copy), code)
    root = ["--allow-root"] if os.geteuid() == 0 else []
    linted = output_of("lintian", *root, "--fail-on", "error", package)
    context.check("lintian finds no fault", linted, "")


def earlier_package(context: Context, package: Path) -> Path:
    """The same package with a lower version, and with other settings than the package has."""
    folder = context.folder / "earlier"
    output_of("dpkg-deb", "-R", package, folder)
    control = folder / "DEBIAN" / "control"
    control.write_text(re.sub(r"(?m)^Version: .*", "Version: 0.0.1-1", control.read_text()))
    with (folder / "etc" / "streetmap" / "town.conf").open("a") as settings:
        settings.write("# Of an earlier version.\n")
    built = context.folder / "earlier.deb"
    output_of("dpkg-deb", "-Znone", "--root-owner-group", "-b", folder, built)
    return built


@dataclass(frozen=True)
class FreshRoot:
    """A Debian without anything beside its base, in a folder."""

    context: Context
    folder: Path

    def run(self, *words: str) -> str:
        """Runs a command in it as root."""
        return output_of("chroot", self.folder, *words)

    def run_as_user(self, *words: str) -> str:
        """Runs a command in it as the package's user."""
        return output_of("chroot", "--userspec=streetmap:streetmap", self.folder, *words)

    def path(self, name: str) -> Path:
        return self.folder / name.lstrip("/")

    def install(self, package: Path) -> None:
        """Installs a package, keeping settings that were changed."""
        shutil.copy(package, self.path("package.deb"))
        self.run("dpkg", "--force-confdef", "--force-confold", "--install", "/package.deb")

    def started(self) -> list[str]:
        """The arguments that the unit starts for the file `town`, by the settings that it has."""
        settings = self.path("/etc/streetmap/town.conf").read_text()
        return started(self.path("/lib/systemd/system/streetmap@.service"), settings)

    @contextlib.contextmanager
    def serving(self) -> Iterator[str]:
        """The unit's program serves `town` as the unit's user; gives its address."""
        words = ["chroot", "--userspec=streetmap:streetmap", str(self.folder), *self.started()]
        with subprocess.Popen(words, stdout=subprocess.PIPE) as process:
            assert process.stdout is not None
            try:
                line = first_line(process.stdout, self.context.seconds).decode()
                self.context.check("the unit's line serves", line[:10], "listening ")
                yield f"http://{line.split()[-1]}"
            finally:
                process.kill()


def asked(address: str, body: bytes | None = None) -> str:
    """The body that is answered; certificates are taken as they are."""
    trusting = ssl.create_default_context()
    trusting.check_hostname, trusting.verify_mode = False, ssl.CERT_NONE
    with urllib.request.urlopen(address, body, timeout=60, context=trusting) as answer:
        read: bytes = answer.read()
    return read.decode()


def check_installed(root: FreshRoot, port: int) -> None:
    """What an operator does first: settings, a file, a collection, an import."""
    context = root.context
    output_of("systemctl", f"--root={root.folder}", "enable", "streetmap@town")
    context.check("the unit is enabled", root.path(ENABLED).is_symlink(), True)
    data = root.path("/var/lib/streetmap").stat()
    user = root.run("id", "-u", "streetmap").strip()
    context.check("the folder of data", (str(data.st_uid), data.st_mode & 0o777), (user, 0o750))
    settings = root.path("/etc/streetmap/town.conf")
    settings.write_text(settings.read_text().replace("8080", str(port)))
    root.run_as_user("streetmap", "create", "/var/lib/streetmap/town")
    with root.serving() as address:
        body = b'{"key":"b1","edits":[{"op":"open","collection":"lamps","time":"set"}]}'
        context.check("a batch", '"opened":1' in asked(f"{address}/batches", body), True)
    town = "/usr/share/doc/streetmap/examples/town.json"
    words = ["/var/lib/streetmap/town", town, "--key", "b2", "--collection", "lamps"]
    reply = root.run_as_user("streetmap", "import", *words)
    context.check("an import", '"serial":2' in reply, True)


def exported(root: FreshRoot) -> str:
    words = ["/var/lib/streetmap/town", "--collection", "lamps"]
    return root.run_as_user("streetmap", "export", *words)


def check_upgrade(root: FreshRoot, package: Path) -> None:
    context, settings = root.context, root.path("/etc/streetmap/town.conf")
    before = settings.read_text(), exported(root)
    root.install(package)
    wanted = output_of("dpkg-deb", "-f", package, "Version").strip()
    installed = root.run("dpkg-query", "-W", "-f=${Version}", "streetmap")
    context.check("the version after an upgrade", installed, wanted)
    context.check("an upgrade keeps both", (settings.read_text(), exported(root)), before)


def check_removal(root: FreshRoot) -> None:
    program, data = root.path("/usr/bin/streetmap"), root.path("/var/lib/streetmap/town")
    settings = root.path("/etc/streetmap/town.conf")
    shutil.copy(settings, settings.with_name("harbour.conf"))
    root.run("dpkg", "--remove", "streetmap")
    there = [path.exists() for path in (program, data, settings)]
    root.context.check("program, data, settings after removal", there, [False, True, True])


def check_purge(root: FreshRoot, package: Path) -> None:
    """A purge that can show no question keeps the towns for the next installation. It deletes
    them if that was answered beforehand, by the documented command."""
    data = root.path("/var/lib/streetmap/town")
    folder, enabled = root.path("/etc/streetmap"), root.path(ENABLED)
    root.run(*PURGE)
    there = [os.path.lexists(path) for path in (data, folder, enabled)]
    root.context.check("data, settings, unit after purging", there, [True, False, False])
    root.install(package)
    root.context.check("what is kept", '"id":"' in exported(root), True)
    (answer,) = commands_of("Upgrade, removal")
    root.run("sh", "-c", answer.replace("sudo ", ""))
    root.run(*PURGE)
    there = [os.path.lexists(path) for path in (data.parent, folder)]
    root.context.check("data, settings after deleting both", there, [False, False])


def wait_for(port: int, process: subprocess.Popen[bytes], seconds: float) -> None:
    """Waits until something listens at the port."""
    end = time.monotonic() + seconds
    while process.poll() is None and time.monotonic() < end:
        with contextlib.suppress(OSError), socket.create_connection(("127.0.0.1", port), 1):
            return
        time.sleep(0.1)
    raise RuntimeError(f"{process.args!r} does not listen")


def adapt_nginx(root: FreshRoot, port: int, server: int) -> Path:
    """Puts ports and folders of a test in place of those of the package's configuration, with a
    certificate of its own; gives the file that nginx begins with."""
    folder = root.path("/etc/nginx")
    site = folder / "sites-available" / "streetmap"
    text = site.read_text().replace("/usr/share/streetmap", str(root.path("/usr/share/streetmap")))
    text = text.replace("listen 443 ", f"listen 127.0.0.1:{port} ").replace(":8080", f":{server}")
    text = text.replace("/var/log/nginx/", f"{folder}/")
    site.write_text(text.replace("listen 80;", f"listen 127.0.0.1:{free_port()};"))
    key, certificate = folder / "streetmap" / "key.pem", folder / "streetmap" / "certificate.pem"
    words = ["req", "-x509", "-newkey", "rsa:2048", "-nodes", "-subj", "/CN=localhost"]
    output_of("openssl", *words, "-keyout", key, "-out", certificate)
    whole = folder / "nginx.conf"
    whole.write_text(
        f"pid {folder}/nginx.pid; daemon off; user root; events {{}}\n"
        f"http {{ include /etc/nginx/mime.types; access_log off; include {site}; }}\n"
    )
    return whole


def check_map(root: FreshRoot, server: int) -> None:
    """The map page and the server, by the package's configuration of nginx."""
    page = root.path("/usr/share/streetmap/map/index.html")
    if not page.exists():
        return
    port = free_port()
    words = ["/usr/sbin/nginx", "-e", "stderr", "-c", str(adapt_nginx(root, port, server))]
    with root.serving(), subprocess.Popen(words) as process:
        try:
            wait_for(port, process, root.context.seconds)
            address = f"https://127.0.0.1:{port}"
            root.context.check("the map page", asked(f"{address}/map/"), page.read_text())
            collections = asked(f"{address}/collections")
            root.context.check("the server behind nginx", '"lamps"' in collections, True)
        finally:
            process.terminate()


def hindrance(folder: Path) -> str | None:
    """Makes a fresh Debian in the folder; or says why it could not."""
    if os.geteuid() != 0:
        return "that needs root"
    words = ["debootstrap", "--variant=minbase", "bookworm", str(folder)]
    made = subprocess.run(words, capture_output=True, text=True, check=False)
    return made.stdout.strip().rpartition("\n")[2] if made.returncode else None


def check_gateway(root: FreshRoot, gateway: Path) -> None:
    """The gateway's package makes its user, and its settings go when it is purged. Those of the
    server stay. The Python packages that it depends on are not in the fresh Debian."""
    settings = root.path("/etc/streetmap/town.gateway.toml")
    shutil.copy(gateway, root.path("gateway.deb"))
    root.run("dpkg", "--force-depends", "--install", "/gateway.deb")
    context, user = root.context, root.run("id", "-un", "streetmap-gateway").strip()
    context.check("the gateway's user", user, "streetmap-gateway")
    output_of("systemctl", f"--root={root.folder}", "enable", "streetmap-gateway@town")
    shutil.copy(root.path("/usr/share/doc/streetmap-gateway/examples/gateway.toml"), settings)
    root.run("dpkg", "--purge", "streetmap-gateway")
    enabled = root.path(ENABLED.replace("streetmap@", "streetmap-gateway@"))
    there = [os.path.lexists(path) for path in (settings, enabled, settings.with_name("town.conf"))]
    context.check("settings, unit, the server's settings", there, [False, False, True])


def check_fresh_root(context: Context, package: Path, gateway: Path) -> None:
    folder = context.folder / "root"
    if reason := hindrance(folder):
        print(f"  skipped, a fresh Debian to install in: {reason}", flush=True)
        return
    root, port = FreshRoot(context, folder), free_port()
    root.install(earlier_package(context, package))
    check_installed(root, port)
    check_upgrade(root, package)
    check_map(root, port)
    check_gateway(root, gateway)
    check_removal(root)
    check_purge(root, package)


def run(context: Context) -> None:
    check_make_install(context)
    check_completion(context)
    check_unit(context)
    if context.program.read_bytes()[:4] != b"\x7fELF":
        print("  skipped, the package: the program is a script, no ELF file", flush=True)
        return
    package, gateway = built_packages(context, context.folder / "packages")
    check_package(context, package)
    version = output_of("dpkg-deb", "-f", package, "Version").strip()
    packaging.check_package(context, gateway, version)
    check_fresh_root(context, package, gateway)
