"""Lines that act once, that are refused by name, and that others put in; the role that only reads;
how a mirror is made over a table that has lines, and its options."""

import re
import subprocess
from dataclasses import dataclass, replace
from pathlib import Path

import psycopg2
from followers_tests.postgres import Database
from followers_tests.processes import DEPLOY, Script
from followers_tests.rows import ENDED, LINES, OPENED, OTHER, TEXTS, lamp, lines_of, text_of
from harness import Context
from messages import feature, open_collection, point, put
from mirror_tests.mirrors import Mirror, batch_text
from units import unit_lines

SCRIPT = "journal_to_postgres.py"
SYSTEM = ("--system", "EPSG:25832", "--shift", "565000,5934000.125")
# The texts of another journal, from the third on, and its lamps.
FORKED = [*TEXTS[:2], OTHER, text_of("b4", lamp(44))]
OTHERS = [("L2",), ("L33",), ("L44",)]
# Texts that no server writes, and the fault of each as the second edit or as a whole.
BAD_TEXTS = (
    b' {"edits":[],"key":"k"}',
    b'{"edits":[{"op":"open"}],"key":"k"}',
    b'{"edits":[{"collection":"lamps","id":"L1","op":"drop"}],"key":"k"}',
    b'{"edits":[1],"key":"k"}',
    b'{"edits":[{],"key":"k"}',
    b'{"edits":[{"collection":"lamps","op":"insert"}],"key":"k"}',
    b'{"edits":[{"collection":"lamps","feature":{"geometry":{"coordinates":[1],"type":"Point"},'
    b'"id":"x","properties":null,"type":"Feature"},"op":"insert"}],"key":"k"}',
    b'{"edits":[{"collection":"lamps","feature":{"geometry":null,"id":"x","properties":{"a":},'
    b'"type":"Feature"},"op":"insert"}],"key":"k"}',
)


def check_bad_texts(mirror: Mirror) -> None:
    """A line that cannot be read is refused, after others too, and changes nothing."""
    good = [mirror.line(batch_text(f"g{at}", [lamp(at + 50)]), mirror.serial + at) for at in (1, 2)]
    before = mirror.state()
    for text in BAD_TEXTS:
        for number in (0, len(good)):
            lines = good[:number]
            line = mirror.line(text, mirror.serial + len(lines) + 1)
            fault = mirror.put(*lines, line)
            wanted = f"refused {line.serial} bad_batch"
            said = (fault or "").removesuffix(" 1")
            mirror.context.check(f"{text.decode()[:60]} behind {len(lines)}", said, wanted)
    mirror.context.check("bad texts change nothing", mirror.state(), before)


def check_keys(mirror: Mirror) -> None:
    """A key that was used; a name with U+0000."""
    check, before = mirror.context.check, mirror.state()
    again = mirror.line(batch_text("r1", [lamp(77)]))
    check("a used key", mirror.put(again), f"refused {again.serial} key_used")
    zero = mirror.line(batch_text("z", [open_collection("zeros", time="a\0b")]))
    check("a zero in a name", mirror.put(zero), f"refused {zero.serial} zero_in_time 1")
    check("nothing changes", mirror.state(), before)


def check_by_hand(mirror: Mirror) -> None:
    """Whoever puts a line in lets it act, or is refused; a gap is named."""
    check, database = mirror.context.check, mirror.database
    query = "INSERT INTO streetmap_journal VALUES (%s, %s, %s)"
    line = mirror.accept("hand", [lamp(60)])
    database.ask(query, line.serial, line.key, line.text.decode())
    mirror.check("a line by hand")
    next_one = mirror.serial + 1
    for serial, text, wanted in (
        (next_one, batch_text("h", [lamp(60)]), f"refused {next_one} feature_exists 1"),
        (next_one, batch_text("i", [lamp(61)]), f"refused {next_one} bad_batch"),
        (next_one + 2, batch_text("h", [lamp(61)]), f"lines_missing {next_one} {next_one + 1}"),
    ):
        before = mirror.state()
        try:
            database.ask(query, serial, "h", text.decode())
            said = "no fault"
        except psycopg2.Error as error:
            said = str(error)
        check(f"by hand: {wanted}", wanted in said, True)
        check("a fault by hand changes nothing", mirror.state(), before)
    line = mirror.line(batch_text("gap", [lamp(62)]), mirror.serial + 2)
    missing = f"lines_missing {mirror.serial + 1} {mirror.serial + 1}"
    check("a gap", mirror.put(line), missing)


def refused_code(database: Database, query: str) -> str | None:
    """The SQLSTATE of a query by the role that only reads; None if it succeeds."""
    connection = psycopg2.connect(database.dsn)
    try:
        with connection, connection.cursor() as cursor:
            cursor.execute("SET ROLE streetmap_reader")
            cursor.execute(query)
    except psycopg2.Error as error:
        return str(error.pgcode)
    finally:
        connection.close()
    return None


def check_reader(mirror: Mirror) -> None:
    """The role reads state and views, and changes nothing."""
    reads = ("streetmap_mirror", "streetmap_collections", "streetmap_features", "collections.lamps")
    for name in reads:
        got = refused_code(mirror.database, f"SELECT count(*) FROM {name}")
        mirror.context.check(f"the reader reads {name}", got, None)
    for query in (
        "DELETE FROM streetmap_features",
        "UPDATE streetmap_mirror SET serial = 0",
        "INSERT INTO streetmap_collections VALUES ('x', 'x', NULL, 1, 1)",
        "INSERT INTO streetmap_journal VALUES (99, 'k', '')",
        "SELECT batch FROM streetmap_journal",
        "SELECT streetmap_act(1)",
        "CREATE TABLE own (a integer)",
        "DROP VIEW collections.lamps",
    ):
        got = refused_code(mirror.database, query)
        mirror.context.check(f"the reader may not: {query}", got, "42501")


def check_rows(context: Context, cluster: Database) -> None:
    mirror = Mirror.new(context, cluster, "mirror_rows")
    opened = mirror.accept("r0", [OPENED])
    first = mirror.accept("r1", [lamp(1), lamp(2)])
    context.check("lines act", mirror.put(opened, first), None)
    mirror.check("first lines")
    for lines in ([opened, first], [first], [opened]):
        context.check("lines that come twice", mirror.put(*lines), None)
    mirror.check("lines that came twice")
    other = mirror.line(batch_text("r1", [lamp(3)]), first.serial)
    context.check("another text", mirror.put(other), f"other_text {first.serial}")
    check_bad_texts(mirror)
    check_keys(mirror)
    check_by_hand(mirror)
    check_reader(mirror)


@dataclass(frozen=True)
class Journal:
    """A journal, a database, and the transport between them."""

    context: Context
    database: Database
    path: Path

    @classmethod
    def new(cls, context: Context, cluster: Database, name: str) -> "Journal":
        cluster.ask_alone(f"CREATE DATABASE {name}")
        return cls(context, replace(cluster, name=name), context.folder / f"{name}.journal")

    def write(self, lines: list[bytes]) -> None:
        self.path.write_bytes(b"".join(lines))

    def row(self, what: str, words: tuple[str, ...], ends: str | None, serial: int | None) -> None:
        """Puts the journal in. Wanted: the fault, and the serial of the mirror, if any."""
        script = Script(self.context, SCRIPT)
        once = () if "--renew" in words else ("--once",)
        status, said = script.ends(self.path, self.database.dsn, *once, *words)
        said = [it for it in said if not it.startswith(("the mirror acts", "renewing"))]
        self.context.check(what, (status, said[:1]), (1, [ends]) if ends else ENDED)
        if serial is not None:
            found = self.database.ask("SELECT serial FROM streetmap_mirror")
            self.context.check(f"{what}: the mirror", found, [(serial,)])


def check_made_later(context: Context, cluster: Database) -> None:
    """A mirror over a table that has lines; its options; a journal that lacks its first lines."""
    journal = Journal.new(context, cluster, "mirror_later")
    row, mirrored = journal.row, ("--features", *SYSTEM)
    journal.write(LINES)
    row("the table alone", (), None, None)
    unknown = ("--features", "--system", "EPSG:99", "--shift", "0,0")
    row("an unknown system", unknown, "no_system 99", None)
    row("the mirror", mirrored, None, 8)
    row("the mirror again", ("--features",), None, 8)
    moved = ("--features", *SYSTEM[:3], "565000,5934000")
    row("another place", moved, "other_system 25832 565000000 5934000125", 8)
    longer = [*LINES, *lines_of([text_of("b9", lamp(9))], 9)]
    journal.write(longer)
    row("a line without the word", (), None, 9)
    edits = put("insert", "trees", feature("T", point(1, 1))), lamp(10)
    refused = [*longer, *lines_of([text_of("b10", *edits)], 10)]
    journal.write(refused)
    row("a line that is refused", (), "refused 10 no_collection 1", 9)
    row("the same with the word", ("--features",), "refused 10 no_collection 1", 9)
    journal.write(longer)
    check_renewed(journal)
    check_without(journal)
    check_words(context, journal.database)


def check_made_late(context: Context, cluster: Database) -> None:
    """A mirror over a table that lacks lines."""
    journal = Journal.new(context, cluster, "mirror_late")
    journal.write(LINES)
    journal.row("another table", (), None, None)
    journal.database.ask("DELETE FROM streetmap_journal WHERE serial < 4 OR serial = 6")
    journal.row("its mirror", ("--features",), "lines_missing 1 3", None)


def check_renewed(journal: Journal) -> None:
    """A mirror that was changed by hand is made again, in its system or in another; types of
    columns stay; and it follows a table that is made again."""
    row, ask, check = journal.row, journal.database.ask, journal.context.check
    features = "SELECT count(*), min(ST_AsText(geometry)) FROM collections.lamps"
    before = ask(features)
    ask("INSERT INTO streetmap_columns VALUES ('lamps', 'set', 'date')")
    ask("DELETE FROM streetmap_features")
    ask("DROP TABLE streetmap_properties")
    row("renewed, but not the mirror", ("--renew",), "has_mirror", 9)
    row("renewed", ("--features", "--renew"), None, 9)
    check("its features", ask(features), before)
    check("its types of columns", ask("SELECT count(*) FROM streetmap_columns"), [(1,)])
    moved = ("--features", "--renew", "--system", "EPSG:25833", "--shift", "0,0")
    row("renewed elsewhere", moved, None, 9)
    check("its place", ask("SELECT srid FROM streetmap_mirror"), [(25833,)])
    journal.write(lines_of(FORKED))
    row("another's", ("--features",), "other_text 3", 9)
    row("another's, renewed", ("--features", "--renew"), None, 4)
    check("another's features", ask("SELECT id FROM collections.lamps"), OTHERS)


def check_without(journal: Journal) -> None:
    """What README.md runs to do without a mirror leaves the journal's tables alone."""
    text = (DEPLOY / "postgis" / "README.md").read_text()
    (file,) = re.findall(r"psql -d streetmap -f /usr/share/streetmap/deploy/([a-z/.]+sql)", text)
    words = ["psql", "-q", "-d", journal.database.dsn, "-f", str(DEPLOY / str(file))]
    subprocess.run(words, check=True, capture_output=True)
    there = journal.database.ask(
        "SELECT relname FROM pg_class WHERE relname LIKE 'streetmap%%' AND relkind IN ('r', 'v')"
        " ORDER BY relname"
    )
    wanted = [(f"streetmap_{it}",) for it in ("columns", "journal", "journal_replaced")]
    journal.context.check("the tables that are left", there, wanted)
    journal.write(lines_of([*FORKED, *TEXTS[4:6]]))
    journal.row("without a mirror", (), None, None)


def check_towns(context: Context, cluster: Database) -> None:
    """Two towns of one database, beside a mirror of no town: tables, views, and the check."""
    journal = Journal.new(context, cluster, "mirror_towns")
    check, ask = context.check, journal.database.ask
    words = ("--features", *SYSTEM)
    set_on = put("insert", "lamps", feature("L9", point(9, 9), {"set": "2024-05-01"}))
    towns = {"": TEXTS, "harbour": [*TEXTS[:3], text_of("set", set_on)], "a_1": TEXTS[:2]}
    for town, texts in towns.items():
        journal.write(lines_of(texts))
        journal.row(f"the town {town}", ("--town", town, *words), None, len(TEXTS))
        views = f"collections_{town}" if town else "collections"
        found = ask(f"SELECT count(*) FROM {views}.lamps")
        check(f"its view {views}", found, [(len(texts) - 1,)])
    given = ("--town", "a_1", "--program", str(context.program))
    ended = Script(context, "mirror_check.py").ends(journal.database.dsn, journal.path, *given)
    check("the check of a town", ended, ENDED)
    ask("INSERT INTO streetmap_harbour.streetmap_columns VALUES ('lamps', 'set', 'date')")
    ask("SELECT streetmap_harbour.streetmap_make_views()")
    query = "SELECT \"set\"::text FROM collections_harbour.lamps WHERE id = 'L9'"
    check("a reader of a town", refused_code(journal.database, query), None)
    check("a date of a town", ask(query), [("2024-05-01",)])
    journal.write(lines_of(towns["harbour"]))
    journal.row("a town, renewed", ("--town", "harbour", "--features", "--renew"), None, 8)
    check("the date, renewed", ask(query), [("2024-05-01",)])


def documented_words(context: Context) -> list[str]:
    """The options of MIRROR in README.md, which the settings show and the unit takes."""
    (words,) = re.findall(r"(?m)^MIRROR=(.*)$", (DEPLOY / "postgis" / "README.md").read_text())
    settings = (DEPLOY / "town.conf").read_text()
    context.check("the words in the settings", f"{words}." in settings, True)
    (command,) = unit_lines(DEPLOY / "streetmap-journal@.service")["ExecStart"]
    context.check("the words in the unit", command.split()[-1], "$MIRROR")
    return str(words).split()


def check_owner(context: Context, cluster: Database) -> None:
    """A mirror that is made by its database's owner, who may make neither roles nor extensions, and
    has the name of OPERATING.md."""
    cluster.ask("CREATE ROLE streetmap LOGIN")
    cluster.ask_alone("CREATE DATABASE mirror_owned OWNER streetmap")
    owned = replace(cluster, name="mirror_owned")
    journal, script = context.folder / "owned.journal", Script(context, SCRIPT)
    journal.write_bytes(b"".join(LINES))
    dsn = owned.dsn.replace("//postgres@", "//streetmap@")
    words: list[str | Path] = [journal, dsn, "--once", *documented_words(context)]
    got = script.ends(*words)
    context.check("without PostGIS", (got[0], got[1][:1]), (1, ["bad_source 42501"]))
    owned.ask("CREATE EXTENSION postgis")
    names = ("streetmap_features", "streetmap_mirror")
    opening = [open_collection(name, title=name) for name in names]
    shadows = lines_of([text_of("shadows", *opening), text_of("b9", lamp(9))], 9)
    for lines in (LINES, [*LINES, shadows[0]], [*LINES, *shadows]):
        journal.write_bytes(b"".join(lines))
        context.check(f"with it, {len(lines)} lines", script.ends(*words), ENDED)
        found = owned.ask("SELECT serial FROM streetmap_mirror")
        context.check(f"the owner's mirror of {len(lines)}", found, [(len(lines),)])
    context.check("its reader", refused_code(owned, "SELECT id FROM collections.lamps"), None)


def check_words(context: Context, database: Database) -> None:
    for words in (
        ("--system", "EPSG:25832", "--shift", "0,0"),
        ("--features", "--system", "EPSG:25832"),
        ("--features", "--shift", "0,0"),
        ("--features", "--system", "25832", "--shift", "0,0"),
        ("--features", "--system", "EPSG:25832", "--shift", "0,0.0001"),
        ("--features", "--system", "EPSG:25832", "--shift", "0"),
        ("--features", "--system", "EPSG:25832", "--shift", "0,nan"),
    ):
        got = Script(context, SCRIPT).ends(context.folder / "none", database.dsn, *words)
        context.check(f"the words {words}", got[0], 2)
