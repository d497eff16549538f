"""Files of other formats: format 1 is migrated to format 2, others are refused."""

from pathlib import Path

from examples import text_path
from groups.file import BATCHES, batch_text, check_rows, check_tables, reply, replies, town_file
from harness import Context
from messages import get
from sqlite_file import FORMAT_OF, Rows, change, make_format_1, rows

FEATURES = "SELECT * FROM streetmap_features ORDER BY collection, id"
SERIALS = "SELECT * FROM streetmap_batches ORDER BY serial"
ONE_LAMP = "SELECT x0, y0, x1, y1, s0, s1 FROM streetmap_features WHERE id = 'L1'"
NONE_OF_OURS = {
    "UPDATE streetmap_meta SET value = 3": "new_format",
    "UPDATE streetmap_meta SET value = 0": "not_ours",
    "DELETE FROM streetmap_meta": "not_ours",
    "DROP TABLE streetmap_meta": "not_ours",
}


def check_other_formats(context: Context) -> None:
    file = context.new_file("formats")
    for script, code in NONE_OF_OURS.items():
        change(file, script)
        context.check(script, context.run("pipe", file, sent=get("/"), status=1, code=code), b"")
        context.check(script, context.run("check", file, status=1, code=code), b"")


def check_carried_over(context: Context) -> Path:
    """A file of format 1 is migrated when it is opened: every column, and no more."""
    file = town_file(context, "old")
    wanted, batches = rows(file, FEATURES), rows(file, SERIALS)
    make_format_1(file)
    change(file, "CREATE TABLE notes (text TEXT); INSERT INTO notes VALUES ('beside');")
    context.check("format 1", rows(file, FORMAT_OF), [("format", 1)])
    again = replies(context.pipe(file, batch_text("b1", BATCHES["b1"])))
    context.check("a repeat over format 1", again, [reply("b1", 1, opened=1, inserted=1)])
    context.check("format 2", rows(file, FORMAT_OF), [("format", 2)])
    context.check("every column", rows(file, FEATURES), wanted)
    context.check("a point", rows(file, ONE_LAMP), [(1000, 2000, 1000, 2000, None, None)])
    context.check("the batches", rows(file, SERIALS), batches)
    context.check("another table", rows(file, "SELECT * FROM notes"), [("beside",)])
    context.check("its counts", context.run("check", file), b"ok 2 4 3\n")
    check_tables(context, file)
    check_rows(context, file)
    return file


def check_commands_on_format_1(context: Context, file: Path) -> None:
    exported = context.run("export", file, "--collection", "works")
    make_format_1(file)
    again = context.run("export", file, "--collection", "works")
    context.check("an export of format 1", again, exported)
    make_format_1(file)
    none = text_path(context, "none", '{"type":"FeatureCollection","features":[{}]}')
    words = ("import", file, none, "--key", "i1", "--collection", "lamps")
    context.run(*words, status=1, code="bad_feature 1 wrong_type")
    context.check("a refused text opens no file", rows(file, FORMAT_OF), [("format", 1)])
    one = text_path(context, "one", '{"type":"FeatureCollection","features":[{"type":"Feature"}]}')
    told = context.run("import", file, one, "--key", "i1", "--collection", "lamps")
    wanted = b'{"deleted":0,"inserted":1,"key":"i1","opened":0,"replaced":0,"serial":4}\n'
    context.check("an import into format 1", told, wanted)
    context.check("its counts behind it", context.run("check", file), b"ok 2 5 4\n")


def check_damaged_format_1(context: Context, file: Path) -> None:
    """A file of format 1 with a row that cannot be read stays as it is."""
    make_format_1(file)
    change(file, "UPDATE streetmap_features SET body = 'unreadable' WHERE id = 'L4'")

    def kept() -> tuple[Rows, Rows]:
        return rows(file, FEATURES), rows(file, FORMAT_OF)

    before = kept()
    context.check("a damaged row", context.run("check", file, status=3, code="damaged"), b"")
    context.check("the damaged file stays", kept(), before)
    empty = context.new_file("empty")
    make_format_1(empty)
    context.check("format 1 with no row", context.run("check", empty), b"ok 0 0 0\n")
    context.check("carried over with no row", rows(empty, FORMAT_OF), [("format", 2)])


def run(context: Context) -> None:
    check_other_formats(context)
    file = check_carried_over(context)
    check_commands_on_format_1(context, file)
    check_damaged_format_1(context, file)
