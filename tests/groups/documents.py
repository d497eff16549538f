"""The commands of README, the tutorial and docs/API.md give what these say; links, sizes hold.

Blocks of a document that are fenced as `sh` are run as they are, by bash, with the program on the
PATH. A block fenced as `json` or `html` after one is what it prints. Blocks of `text` are not run:
they need root, the toolchain, a browser, or are no commands.
"""

import os
import re
import signal
import socket
import subprocess
import time
from dataclasses import dataclass, field
from pathlib import Path

from harness import TESTS, Context, free_port
from theorem import page_faults

PACKAGES = ("curl", "gdal-bin")
ROOT = TESTS.parent
README = ROOT / "README.md"
DOCUMENTS = [README, *sorted((ROOT / "docs").glob("*.md"))]
CONTRIBUTING = ROOT / "CONTRIBUTING.md"
MOST_WORDS, MOST_COLUMNS, MOST_README, MOST_CONTRIBUTING = 36_000, 100, 120, 60
HEADLINE = (
    "For every list of batches, and a stop before or within any write, the file, where it opens "
    "again, holds the state of a beginning of the accepted batches that contains every "
    "acknowledged one; and each page answered is exactly the part that was asked of that state's "
    "features meeting box and interval, in order of ids."
)
FENCED = re.compile(r"^```(\w+)\n(.*?)^```$", re.MULTILINE | re.DOTALL)
LINK = re.compile(r"\]\(([^)\s]+)\)")
# The port of the documents.
PORT = "8080"
SERVING = re.compile(r"^(streetmap serve .*)$", re.MULTILINE)


def blocks_of(document: Path, after: str = "") -> list[tuple[str, str]]:
    """The fenced blocks of a document after a heading: of each its language and its text."""
    text = document.read_text().partition(after)[2] if after else document.read_text()
    return FENCED.findall(text)


def one_line(text: str) -> str:
    """An answer that is broken over lines with an indent, as one line."""
    return re.sub(r"\n {4}", "", text).removesuffix("\n")


def anchors_of(document: Path) -> set[str]:
    """The names that links to a document's headings have."""
    headings = re.findall(r"^#+ (.*)$", document.read_text(), re.MULTILINE)
    plain = [re.sub(r"[^\w\- ]", "", heading.lower()) for heading in headings]
    return {heading.replace(" ", "-") for heading in plain}


def listens(port: int) -> bool:
    """Whether something listens at a port of this machine."""
    with socket.socket() as probe:
        return probe.connect_ex(("127.0.0.1", port)) == 0


@dataclass
class Shell:
    """Runs blocks in a folder, with the program on the PATH. A block that serves is left running
    until the next one that serves, or the end."""

    context: Context
    folder: Path
    port: int = field(default_factory=free_port)
    serving: subprocess.Popen[bytes] | None = None

    def __post_init__(self) -> None:
        (self.folder / "bin").mkdir(parents=True)
        (self.folder / "bin" / "streetmap").symlink_to(self.context.program)

    def started(self, script: str) -> subprocess.Popen[bytes]:
        path = f"{self.folder / 'bin'}:{os.environ['PATH']}"
        return subprocess.Popen(
            ["bash", "-eu", "-o", "pipefail", "-c", script.replace(PORT, str(self.port))],
            cwd=self.folder,
            env={**os.environ, "PATH": path},
            stdin=subprocess.DEVNULL,
            stdout=subprocess.PIPE,
            stderr=subprocess.PIPE,
            start_new_session=True,
        )

    def stop(self) -> None:
        """Ends what serves, as Ctrl-C does."""
        if self.serving is not None:
            os.killpg(self.serving.pid, signal.SIGINT)
            self.serving.communicate(timeout=self.context.seconds)
            self.serving = None

    def serve(self, script: str) -> str:
        """Starts a block whose last command serves, and waits until it listens; what the commands
        before it printed."""
        *before, _ = SERVING.split(script)[:2]
        printed = self.run("".join(before)) if "".join(before).strip() else ""
        self.serving = self.started(SERVING.findall(script)[-1])
        end = time.monotonic() + self.context.seconds
        while not listens(self.port) and time.monotonic() < end:
            time.sleep(0.05)
        self.context.check("a block that serves listens", listens(self.port), True)
        return printed

    def run(self, script: str) -> str:
        """Runs a block to its end; what it printed, with the port of the documents."""
        if SERVING.search(script):
            self.stop()
            return self.serve(script)
        process = self.started(script)
        out, errors = process.communicate(timeout=self.context.seconds)
        what = script.strip().split("\n")[0][:80]
        reported = errors.decode() if process.returncode else ""
        self.context.check(f"{what}: status", (process.returncode, reported), (0, ""))
        return out.decode().replace(str(self.port), PORT)


def run_blocks(context: Context, shell: Shell, blocks: list[tuple[str, str]]) -> None:
    """Runs blocks in order, and compares what each prints with the block after it."""
    what, printed = "", ""
    for language, text in blocks:
        if language == "sh":
            what, printed = text.strip().split("\n")[0][:80], shell.run(text)
        elif language in ("json", "html"):
            context.check(f"{what}: prints", printed.removesuffix("\n"), one_line(text))


def check_api(context: Context) -> None:
    """Each of the eight paths, over an empty file that is served as docs/API.md says."""
    api = ROOT / "docs" / "API.md"
    shell = Shell(context, context.folder / "api")
    blocks = blocks_of(api, "# HTTP\n")
    asked = "".join(text for language, text in blocks if language == "sh")
    paths = set(re.findall(r"localhost:8080(/[^\s'?]*)", asked))
    context.check("paths of which API has a request", len(paths), 8)
    shell.run(blocks[0][1])
    run_blocks(context, shell, blocks[1:])
    shell.stop()


def check_tutorial(context: Context) -> None:
    """The tutorial from its layer to the GIS, README's recipe in its place."""
    shell = Shell(context, context.folder / "tutorial")
    (recipe,) = [it for it in blocks_of(README) if it[0] == "sh"]
    tutorial = blocks_of(ROOT / "docs" / "TUTORIAL.md")
    context.check("the first block is the layer", "lamps.gpkg" in tutorial[0][1], True)
    unserved = next(at for at, (_, text) in enumerate(tutorial) if "streetmap check" in text)
    run_blocks(context, shell, [tutorial[0], recipe, *tutorial[1:unserved]])
    shell.stop()
    run_blocks(context, shell, tutorial[unserved:])
    back = subprocess.run(
        ["ogrinfo", "-al", "back.gpkg"], cwd=shell.folder, capture_output=True, text=True
    )
    for line in ("POINT (565012.345 5934040.5)", "POINT (565036.5 5934055.25)"):
        context.check(f"what comes back: {line}", line in back.stdout, True)


def check_sizes(context: Context) -> None:
    words = sum(len(it.read_text().split()) for it in DOCUMENTS)
    context.check(f"{words} words are at most {MOST_WORDS}", words <= MOST_WORDS, True)
    readme = README.read_text()
    context.check("lines of README", len(readme.splitlines()) <= MOST_README, True)
    lines = CONTRIBUTING.read_text().splitlines()
    context.check("lines of CONTRIBUTING", len(lines) <= MOST_CONTRIBUTING, True)
    quoted = " ".join(line.removeprefix("> ") for line in readme.splitlines() if line[:1] == ">")
    context.check("the headline", quoted, HEADLINE)
    for document in [CONTRIBUTING, *DOCUMENTS]:
        numbered = enumerate(document.read_text().splitlines(), 1)
        long = [number for number, line in numbered if len(line) > MOST_COLUMNS]
        context.check(f"long lines of {document.name}", long, [])


def check_links(context: Context) -> None:
    """Each link of a document to a file of the repository, or to a heading, finds it."""
    for document in [CONTRIBUTING, *DOCUMENTS]:
        for link in LINK.findall(document.read_text()):
            if "://" in link:
                continue
            name, _, anchor = link.partition("#")
            target = (document.parent / name).resolve() if name else document
            found = target.exists() and (not anchor or anchor in anchors_of(target))
            context.check(f"{document.name}: the link {link}", found, True)


def check_man(context: Context) -> None:
    """The manual page's FILES names each setting of the unit."""
    settings = re.findall(r"^([A-Z_]+)=", (ROOT / "deploy" / "town.conf").read_text(), re.MULTILINE)
    page = (ROOT / "docs" / "man" / "streetmap.1").read_text()
    files = page.partition(".Sh FILES\n")[2].partition(".Sh ")[0]
    lacking = [name for name in settings if name not in re.split(r"[\s,.]+", files)]
    context.check("settings that the manual page lacks", lacking, [])


def check_theorem(context: Context) -> None:
    """What docs/THEOREM.md quotes and counts is so."""
    context.check("what the theorem's page says that is not so", page_faults(), [])


def run(context: Context) -> None:
    check_man(context)
    check_theorem(context)
    check_sizes(context)
    check_links(context)
    check_api(context)
    check_tutorial(context)
