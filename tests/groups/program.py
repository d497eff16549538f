"""The commands over files: output, exit statuses, imports, exports, a pipe, --progress, --explain."""

import json
import os
import subprocess
from pathlib import Path
from typing import IO

from examples import text_path
from harness import Context, Word, first_line
from messages import OPEN_LAMPS, batch, get, insert_lamp, open_collection

MOST_BYTES = 8_388_608
ITEMS = "/collections/lamps/items"
# Command lines that are refused.
WRONG_COMMANDS = """\
lines x
create
create a b
pipe
pipe a --port 80
serve a
serve a --port 0
serve a --port 65536
serve a --port +80
serve a --port 80 --port 81
serve a --port 80 --count 0
serve a --port 80 --count 4294967296
serve a --port 80 --clients 0
serve a --port 80 --clients 1025
import a t --collection c
import a t --key k
import a --key k --collection c
import a t u --key k --collection c
import a t --key k --collection c --replace=true
import a t --key k --collection c --progress --progress
export a
export a t --collection c
export a --collection c --progress=true
export a --progress --collection c --progress
check
check a b
check a --base http://localhost/
check a --progress
--
help x
help create pipe
create a --prot --help
"""
# Command lines that print help, and the first words of its line on usage.
HELPS = {
    "": "streetmap [COMMAND]",
    "help": "streetmap [COMMAND]",
    "--help": "streetmap [COMMAND]",
    "-h": "streetmap [COMMAND]",
    "--help serve": "streetmap [COMMAND]",
    "help serve": "streetmap serve [OPTIONS] --port <port> <file>",
    "serve --help": "streetmap serve [OPTIONS] --port <port> <file>",
    "serve a --port 80 -h": "streetmap serve [OPTIONS] --port <port> <file>",
    "create --help": "streetmap create [OPTIONS] <file>",
    "help import": "streetmap import [OPTIONS] --key <key> --collection <collection> <file> <text>",
    "lines -h": "streetmap lines [OPTIONS]",
}
# Arguments that are refused, and the sentence on them.
MISTAKES = {
    "create a --prot": "unexpected argument '--prot' found. For help: streetmap help create",
    "serve a": "the following required arguments were not provided: --port <port>."
    " For help: streetmap help serve",
    "serve a --port 65536": "A port is a number from 1 to 65535, a count from 1 to 4294967295,"
    " clients from 1 to 1024. For help: streetmap help serve",
    "serve a --port 80 --journal-sync": "The options of a journal go with --journal."
    " For help: streetmap help serve",
    "serve a --port 80 --fenced --follower t": "A server is fenced or a follower, not both."
    " For help: streetmap help serve",
    "pipe a --follower t --fenced": "A server is fenced or a follower, not both."
    " For help: streetmap help pipe",
    "batches a --after x": "A serial is a number from 0 to 4294967295."
    " For help: streetmap help batches",
    "help x": "After help comes the name of one command, or nothing. For help: streetmap help",
    "creat a": "unrecognized subcommand 'creat'. For help: streetmap help",
    "load a --key k --collection c --each 0": "A batch has 1 to 10000 features."
    " For help: streetmap help load",
    "load a --key k --collection c --title t": "A title and a time go with --open."
    " For help: streetmap help load",
    "load a --key k --collection c --scale 0": "Numbers of a scale are above 0; a shift is two"
    " numbers with a comma between, as --shift=-5,-6. For help: streetmap help load",
    "load a --key k --collection c --shift -5,-6": "A shift that begins with a minus is one word"
    " with its option, as --shift=-5,-6. For help: streetmap help load",
}
COMMANDS = "lines create pipe serve import export check load batches apply".split()


def check_wrong_commands(context: Context) -> None:
    for line in WRONG_COMMANDS.split("\n")[:-1]:
        context.run(*line.split(), status=2, code="usage")


def check_help(context: Context) -> None:
    """Help is on standard output; that of the program names each command, which has its own."""
    for words, usage in HELPS.items():
        lines = context.run(*words.split()).decode().splitlines()
        context.check(f"usage in help by {words!r}", f"Usage: {usage}" in lines, True)
    listed = context.run("--help").decode().split("Commands:\n")[1].split("\n\n")[0]
    names = [line.split()[0] for line in listed.splitlines()]
    context.check("the commands in help", names, [*COMMANDS, "help"])
    for name in COMMANDS:
        printed = context.run(name, "--help")
        context.check(f"help {name}", context.run("help", name), printed)
        begins = f"\nUsage: streetmap {name}".encode()
        context.check(f"usage of {name}", begins in printed, True)


def check_mistakes(context: Context) -> None:
    """The second line on arguments that are refused, with --explain and on a terminal."""
    for line, sentence in MISTAKES.items():
        context.explain(*line.split(), status=2, code="usage", sentence=sentence)
    shown = context.on_terminal("create", "a", "--prot")
    sentence = MISTAKES["create a --prot"]
    context.check("on a terminal", shown, (2, f"streetmap: usage\n{sentence}\n".encode()))
    for name in COMMANDS:
        listed = b"--explain" in context.run("help", name)
        context.check(f"--explain in help on {name}", listed, True)


def check_version(context: Context) -> None:
    """The version is that of the changes and of the package, and nothing else is done."""
    top = Path(__file__).resolve().parents[2]
    changes = (top / "CHANGELOG.md").read_text().split("\n## ")[1].split(",")[0]
    package = (top / "packaging" / "debian" / "changelog").read_text()
    context.check("the version of the package", package.split("(")[1].split("-")[0], changes)
    for words in ("--version", "-V", "--version create a"):
        printed = context.run(*words.split())
        context.check(words, printed, f"streetmap {changes}\n".encode())
    context.run("create", "a", "--version", status=2, code="usage")


def check_faults_of_files(context: Context) -> None:
    folder, file = context.folder, context.folder / "first.db"
    context.run("pipe", file, status=1, code="no_file")
    context.run("serve", file, "--port", "9", status=1, code="no_file")
    context.run("check", file, status=1, code="no_file")
    for base in ("localhost", "http://localhost/a"):
        context.run("pipe", file, "--base", base, status=1, code="bad_base")
    context.run("create", folder / "none" / "first.db", status=3, code="device")
    context.check("what create prints", context.run("create", file), b"")
    context.run("create", file, status=1, code="exists")
    context.check("nothing asked", context.run("pipe", file), b"")
    context.check("nothing to count", context.run("check", file), b"ok 0 0 0\n")
    text = text_path(context, "text", "no tables\n" * 200)
    empty = text_path(context, "empty", "")
    context.run("pipe", text, status=1, code="not_ours")
    context.run("check", text, status=1, code="not_ours")
    context.run("pipe", empty, status=1, code="not_ours")
    context.run("create", empty, status=1, code="exists")


def check_pipe(context: Context) -> None:
    file = context.new_file("pipe.db")
    sent = batch("b1", [OPEN_LAMPS, insert_lamp(1)])
    first, again, page = context.pipe(file, sent, sent, get(ITEMS))
    reply = b'{"deleted":0,"inserted":1,"key":"b1","opened":1,"replaced":0,"serial":1}'
    context.check("a batch", (first.status, first.body), (200, reply))
    context.check("the batch again", again, first)
    context.check("its counts", context.run("check", file), b"ok 1 1 1\n")
    context.check("a page", page.json()["numberMatched"], 1)
    context.check("the default base", f'"http://localhost{ITEMS}'.encode() in page.body, True)
    words = ("--base", "https://maps.example:8443/")
    (based,) = context.pipe(file, get("/collections/lamps"), words=words)
    start = b'"https://maps.example:8443/collections/lamps'
    context.check("a base", start in based.body, True)
    cut = context.run("pipe", file, sent=batch("b2", [insert_lamp(2)])[:-1])
    context.check("a request that is cut", cut, b"")
    (left,) = context.pipe(file, get(ITEMS))
    context.check("nothing of it is applied", left.json()["numberMatched"], 1)
    check_faults_of_pipe(context, file)


def check_faults_of_pipe(context: Context, file: Path) -> None:
    descriptor = os.open(context.folder, os.O_RDONLY)
    ended = context.start("pipe", file, stdin=descriptor)
    os.close(descriptor)
    got = (ended.returncode, ended.stderr)
    context.check("a folder as input", got, (3, b"streetmap: read_failed\n"))
    with open("/dev/full", "wb") as full:
        ended = context.start("pipe", file, sent=get("/"), stdout=full)
    got = (ended.returncode, ended.stderr)
    context.check("a full output", got, (3, b"streetmap: write_failed\n"))


NAMELESS = (
    b'{"type":"FeatureCollection","name":"lamps","features":[{"type":"Feature",'
    b'"properties":{"no":7},"geometry":{"type":"Point","coordinates":[5,6]}}]}'
)
SHORT_RING = (
    b'{"type":"FeatureCollection","features":[{"type":"Feature"},{"type":"Feature",'
    b'"geometry":{"type":"Polygon","coordinates":[[[0,0],[9,0],[0,0]]]}}]}'
)
EXPORTED = (
    b'{"features":[{"geometry":{"coordinates":[5,6],"type":"Point"},"id":"1",'
    b'"properties":{"no":7},"type":"Feature"}],"type":"FeatureCollection"}\n'
)
EMPTY = b'{"features":[],"type":"FeatureCollection"}\n'


def reply_text(key: str, serial: int, inserted: int = 0, replaced: int = 0) -> bytes:
    counts = {"deleted": 0, "inserted": inserted, "key": key, "opened": 0}
    counts |= {"replaced": replaced, "serial": serial}
    return json.dumps(counts, separators=(",", ":")).encode() + b"\n"


def import_words(file: Path, text: Path, key: str, *more: str, into: str = "lamps") -> list[Word]:
    return ["import", file, text, "--key", key, "--collection", into, *more]


def check_imports(context: Context) -> None:
    file, text = context.folder / "exchanged.db", text_path(context, "lamps.json", NAMELESS)
    first = import_words(file, text, "i1")
    context.run(*first, status=1, code="no_file")
    context.run("export", file, "--collection", "lamps", status=1, code="no_file")
    context.check("no file is made", file.exists(), False)
    context.run("create", file)
    context.run(*first, status=1, code="no_collection 1")
    (opened,) = context.pipe(file, batch("b1", [OPEN_LAMPS]))
    context.check("a collection is opened", opened.status, 200)
    exported = context.run("export", file, "--collection", "lamps")
    context.check("an empty collection", exported, EMPTY)
    reply = reply_text("i1", 2, inserted=1)
    context.check("an import", context.run(*first), reply)
    context.check("the import again", context.run(*first), reply)
    again = context.run(*import_words(file, text, "i2"), status=1, code="feature_exists 1")
    context.check("a used id", again, b"")
    context.run(*first, "--replace", status=1, code="key_used")
    replaced = context.run(*import_words(file, text, "i3", "--replace"))
    context.check("a replacing import", replaced, reply_text("i3", 3, replaced=1))
    exported = context.run("export", "--collection=lamps", file)
    context.check("an export", exported, EXPORTED)
    context.pipe(file, batch("b2", [open_collection("copy")]))
    context.run(*import_words(file, text_path(context, "copy.json", exported), "i4", into="copy"))
    copied = context.run("export", file, "--collection", "copy")
    context.check("an export of an import of an export", copied, EXPORTED)
    check_refused_imports(context, file, text)
    with open("/dev/full", "wb") as full:
        ended = context.start("export", file, "--collection", "lamps", stdout=full)
    got = (ended.returncode, ended.stderr)
    context.check("an export to a full output", got, (3, b"streetmap: write_failed\n"))


def check_refused_imports(context: Context, file: Path, text: Path) -> None:
    """Texts that are refused over a file of two collections, and how they leave it."""
    before = context.run("check", file)
    context.check("the counts before", before.startswith(b"ok 2 "), True)
    short_ring = text_path(context, "short_ring.json", SHORT_RING)
    refused = "bad_feature 2 short_ring"
    context.run(*import_words(file, short_ring, "i5"), status=1, code=refused)
    context.check("the counts behind a refusal", context.run("check", file), before)
    nothing = context.run("export", file, "--collection", "trees", status=1, code="no_collection")
    context.check("nothing is written", nothing, b"")
    none = context.folder / "none.json"
    context.run(*import_words(file, none, "i6"), status=1, code="no_text")
    context.run(*import_words(file, none, "i 6"), status=1, code="no_text")
    context.run(*import_words(file, text, "i 6"), status=1, code="bad_key")
    context.run(*import_words(file, context.folder, "i6"), status=3, code="read_failed")
    large = text_path(context, "large.json", NAMELESS.ljust(MOST_BYTES + 1))
    context.run(*import_words(file, large, "i6"), status=1, code="text_too_large")
    large.write_bytes(NAMELESS.ljust(MOST_BYTES))
    context.run(*import_words(file, large, "i6", "--replace"))


def check_progress(context: Context) -> None:
    """Lines on standard error report how far an import and an export are, if they are
    requested; all else is as without them."""
    features = [{"type": "Feature"}] * 2_500
    many = json.dumps({"type": "FeatureCollection", "features": features})
    file, text = context.new_file("progress.db"), text_path(context, "many.json", many)
    context.pipe(file, batch("b1", [OPEN_LAMPS]))
    lines = b"streetmap: 1000 features\nstreetmap: 2000 features\n"
    importing = import_words(file, text, "i1")
    exporting: list[Word] = ["export", file, "--collection"]

    def check(what: str, words: list[Word], wanted: tuple[int, bytes, bytes]) -> None:
        ended = context.start(*words, "--progress")
        context.check(what, (ended.returncode, ended.stdout, ended.stderr), wanted)

    check("progress of an import", importing, (0, reply_text("i1", 2, inserted=2_500), lines))
    exported = context.run(*exporting, "lamps")
    check("progress of an export", [*exporting, "lamps"], (0, exported, lines))
    refused = lines + b"streetmap: key_used\n"
    check("a refusal behind the lines", [*importing, "--replace"], (1, b"", refused))
    refused = b"streetmap: no_collection\n"
    check("no progress to report", [*exporting, "trees"], (1, b"", refused))
    with open("/dev/full", "wb") as full:
        ended = context.start(*exporting, "lamps", "--progress", stderr=full)
    got = (ended.returncode, ended.stdout)
    context.check("an export whose lines cannot be written", got, (0, exported))


LAMP = b'{"type":"Feature","id":"%s","geometry":{"type":"Point","coordinates":[%s]}}\n'
ERASE = b"\r\x1b[K"
DEGREES = b"All coordinates lie within 360 of 0: are they degrees? Streetmap wants metres or so; "
DEGREES += b"see --scale.\n"


def load_words(file: Path, key: str, *more: str) -> list[Word]:
    return ["load", file, "-", "--key", key, "--collection", "lamps", *more]


def check_standard_input(context: Context) -> None:
    """`-` is standard input, of a load and of batches that are applied."""
    file, copy = context.new_file("dash.db"), context.new_file("dash-copy.db")
    loaded = context.run(*load_words(file, "k", "--open"), sent=LAMP % (b"L1", b"1,2"))
    context.check("a load of -", loaded, b'{"batches":1,"features":1,"serial":1}\n')
    kept = context.run("batches", file)
    replies = context.run("apply", copy, "-", sent=kept)
    context.check("replies to the batches of -", replies.count(b'"inserted":1'), 1)
    context.check("the copy", context.run("batches", copy), kept)


def check_degrees(context: Context) -> None:
    """A load with all coordinates within 360 of 0 gets a question on degrees, for people only."""
    near, far = LAMP % (b"L1", b"-360,360"), LAMP % (b"L2", b"0,361")

    def check(what: str, words: tuple[str, ...], sent: bytes, wanted: bytes) -> None:
        file = context.new_file(f"{what}.db")
        printed = context.run(*load_words(file, "k", "--open"), sent=sent)
        file = context.new_file(f"{what}-again.db")
        ended = context.start(*load_words(file, "k", "--open", *words), sent=sent)
        got = ended.returncode, ended.stdout, ended.stderr
        context.check(what, got, (0, printed, wanted))

    check("degrees", ("--explain",), near, DEGREES)
    check("degrees with progress", ("--progress",), near, DEGREES)
    check("no degrees", ("--explain",), near + far, b"")
    check("no coordinates", ("--explain",), b"", b"")
    file = context.new_file("scaled.db")
    ended = context.start(*load_words(file, "k", "--open", "--scale", "1", "--explain"), sent=near)
    context.check("a scale", (ended.returncode, ended.stderr), (0, b""))
    file = context.new_file("degrees-shown.db")
    shown = context.on_terminal(*load_words(file, "k", "--open"), sent=near)
    context.check("on a terminal", shown, (0, ERASE + DEGREES))


def check_progress_on_terminal(context: Context) -> None:
    """One line that is written over, and taken away at the end."""
    file = context.new_file("shown.db")
    sent = b"".join(LAMP % (b"%d" % at, b"%d,0" % at) for at in range(2_000))
    status, shown = context.on_terminal(*load_words(file, "k", "--open"), sent=sent)
    first, *lines = shown.split(ERASE)
    begun = [line.split(b" features")[0] for line in lines]
    wanted = (0, b"", [b"streetmap: 1000", b"streetmap: 2000", b""])
    context.check("lines of a load", (status, first, begun), wanted)
    context.check("no line is ended", b"\n" in shown, False)
    shown = context.on_terminal("export", file, "--collection", "lamps")[1]
    counted = b"".join(ERASE + b"streetmap: %d features" % count for count in (1000, 2000))
    context.check("lines of an export", shown, counted + ERASE)
    bad = LAMP % (b"B", b"0.5,0")
    sent = sent.replace(b'"id":"', b'"id":"n') + bad
    shown = context.on_terminal(*load_words(file, "l", "--skip"), sent=sent)[1]
    wanted_line = ERASE + b"streetmap: bad_feature 2001 fraction\n"
    context.check("a fault takes its line", wanted_line in shown, True)


def check_flushes(context: Context) -> None:
    """Each answer comes before the next request is sent."""
    file = context.new_file("flushed", batch("o", [OPEN_LAMPS]))
    cases: list[tuple[list[Word], bytes]]
    cases = [(["pipe", file], get(ITEMS)), (["lines"], b"page lamps\n")]
    for words, sent in cases:
        wanted = context.run(*words, sent=sent).splitlines(keepends=True)[0]
        given = [str(context.program), *map(str, words)]
        with subprocess.Popen(given, stdin=subprocess.PIPE, stdout=subprocess.PIPE) as process:
            assert process.stdin is not None and process.stdout is not None
            for number in range(3):
                process.stdin.write(sent)
                process.stdin.flush()
                line = first_line(process.stdout, context.seconds)
                context.check(f"{words[0]}: answer {number + 1}", line, wanted)
                if "pipe" in words:
                    read_rest(process.stdout)
            process.stdin.close()


def read_rest(output: IO[bytes]) -> None:
    """Reads what follows the first line of an HTTP answer."""
    fields = [*iter(output.readline, b"\r\n")]
    length = next(it for it in fields if it.startswith(b"Content-Length: "))
    output.read(int(length.split()[1]))


def run(context: Context) -> None:
    check_wrong_commands(context)
    check_mistakes(context)
    check_version(context)
    check_help(context)
    check_faults_of_files(context)
    check_pipe(context)
    check_flushes(context)
    check_imports(context)
    check_progress(context)
    check_standard_input(context)
    check_degrees(context)
    check_progress_on_terminal(context)
