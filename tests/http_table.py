"""Writes the table of HTTP rows of a proved test, from examples/http.jsonl,
examples/conditional.jsonl and examples/changes.jsonl.

    python3 tests/http_table.py [--check]

The test runs the rows over keepers in memory, over tables and with an index. A proved test reads no
file, so its table is source. With --check nothing is written, and the status is 1 if the table
is not that of the rows.
"""

import argparse
import sys
from pathlib import Path

ROOT = Path(__file__).resolve().parent.parent
ROWS = ROOT / "examples" / "http.jsonl"
CONDITIONAL = ROOT / "examples" / "conditional.jsonl"
CHANGES = ROOT / "examples" / "changes.jsonl"
TABLE = ROOT / "crates" / "streetmap_store_tests" / "src" / "rows.rt"
SOURCE = """\
//! The rows of HTTP, a JSON object a line: what it shows, the batches that are there before, the
//! bytes of the requests, and all bytes of the answers. `tests/http_table.py` writes this file from
//! `examples/http.jsonl`, `examples/conditional.jsonl` and `examples/changes.jsonl`: change those,
//! and write this one again.

/// The number of rows of a service without tags and changes.
pub(crate) const COUNT: u64 = {count};

pub(crate) const ROWS: &str =
    r##"{rows}"##;

/// The number of rows of a service with tags and changes.
pub(crate) const OPTIONS_COUNT: u64 = {options_count};

pub(crate) const OPTIONS_ROWS: &str =
    r##"{options_rows}"##;
"""


def rows_in(path: Path) -> str:
    """The rows of a file, which can stand in a raw string."""
    rows = path.read_text()
    if '"##' in rows or not rows.endswith("\n"):
        raise ValueError("the rows cannot stand in a raw string")
    return rows


def table() -> str:
    """The source of the table, in the layout of `rt fmt`."""
    rows, options = rows_in(ROWS), rows_in(CONDITIONAL) + rows_in(CHANGES)
    return SOURCE.format(
        count=rows.count("\n"),
        rows=rows,
        options_count=options.count("\n"),
        options_rows=options,
    )


def is_current() -> bool:
    return TABLE.read_text() == table()


def main() -> int:
    parser = argparse.ArgumentParser(description=__doc__.partition("\n")[0])
    parser.add_argument("--check", action="store_true", help="writes nothing, and compares")
    if parser.parse_args().check:
        if is_current():
            return 0
        print(f"{TABLE} is not the table of the rows: run python3 tests/http_table.py")
        return 1
    TABLE.write_text(table())
    return 0


if __name__ == "__main__":
    sys.exit(main())
