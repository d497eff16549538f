"""Rows of HTTP to the byte, each over a file of its own, and bodies at their limits.

A row (examples/http.jsonl; examples/conditional.jsonl of a service with tags,
examples/changes.jsonl of one with tags and changes) has the batches that are there before, the
bytes of the requests, and all bytes of the answers. A proved test runs the same rows over other
keepers, from a table. The rows of fenced.jsonl and follower.jsonl are of services that refuse
batches, and those of status.jsonl and status_and_tags.jsonl of services that show their status.
"""

import json

import http_table
from examples import error_text, rows_of
from harness import Context
from messages import OPEN_LAMPS, delete, feature, post, put

MOST_BYTES = 8_388_608
MOST_EDITS = 10_000
# That of the rows of follower.jsonl.
TOKEN = "a-token-of-a-script"


def written(
    context: Context, number: int, before: list[str], sent: bytes, options: tuple[str, ...] = ()
) -> str:
    """What is written over a new file in which these batches were accepted."""
    file = context.new_file(f"{number}.streetmap", *map(post, before))
    return context.run("pipe", file, *options, sent=sent).decode()


def answer(status: str, body: str, fields: str = "") -> str:
    head = f"Content-Type: application/json\r\nContent-Length: {len(body)}\r\n{fields}"
    return f"HTTP/1.1 {status}\r\n{head}\r\n{body}"


def limits() -> list[tuple[str, list[str], bytes, str]]:
    """Bodies of as many bytes as there may be and of one more, and so batches of edits."""
    unreadable = error_text("bad_batch", "The batch cannot be read.")
    too_large = error_text("body_too_large", "The body is too large.")
    too_many = error_text("too_many_edits", "The batch has more than 10000 edits.")
    reply = '{"deleted":5000,"inserted":5000,"key":"m","opened":0,"replaced":0,"serial":2}'
    opened = [json.dumps({"key": "b1", "edits": [OPEN_LAMPS]})]
    turns = [put("insert", "lamps", feature("T")), delete("lamps", "T")] * (MOST_EDITS // 2 + 1)

    def turning(count: int) -> bytes:
        return post(json.dumps({"key": "m", "edits": turns[:count]}))

    bad = "400 Bad Request"
    closing = answer("413 Payload Too Large", too_large, "Connection: close\r\n")
    return [
        ("a body at the limit", [], post(" " * MOST_BYTES), answer(bad, unreadable)),
        ("a body over the limit", [], post(" " * (MOST_BYTES + 1)), closing),
        ("a batch at the limit", opened, turning(MOST_EDITS), answer("200 OK", reply)),
        ("a batch over the limit", opened, turning(MOST_EDITS + 1), answer(bad, too_many)),
    ]


def rows_in(name: str) -> list[tuple[str, list[str], bytes, str]]:
    """What each row of a file shows, the batches before, the requests and the answers."""
    return [
        (row["what"], row["before"], row["sent"].encode(), row["written"]) for row in rows_of(name)
    ]


def check_guards(context: Context, first: int) -> None:
    """The rows of servers that refuse batches, and files without a token."""
    token = context.folder / "token"
    token.write_text(f"{TOKEN}\nmore\n")
    guards = (("fenced.jsonl", ("--fenced",)), ("follower.jsonl", ("--follower", str(token))))
    for name, options in guards:
        for what, before, sent, wanted in rows_in(name):
            answers = written(context, first, before, sent, ("--conditional", *options))
            context.check(f"{name}: {what}", answers, wanted)
            first += 1
    file = context.new_file("unguarded")
    for text in ("", TOKEN[:15], f"{TOKEN[:8]} {TOKEN[8:]}", "t" * 129, f"\n{TOKEN}"):
        token.write_text(text)
        context.run("pipe", file, "--follower", token, status=1, code="bad_token")
    context.run("pipe", file, "--follower", f"{token}s", status=1, code="bad_token")


def check_status(context: Context, first: int) -> None:
    """The rows of servers with `--status`, alone and with tags and changes; the version that they
    show is that of the program."""
    version = context.run("--version").decode().split()[1]
    context.check("the version", f'"version":"{version}"' in rows_in("status.jsonl")[0][3], True)
    alone, all_three = ("--status",), ("--conditional", "--changes", "--status")
    for name, options in (("status.jsonl", alone), ("status_and_tags.jsonl", all_three)):
        for what, before, sent, wanted in rows_in(name):
            answers = written(context, first, before, sent, options)
            context.check(f"{name}: {what}", answers, wanted)
            first += 1


def run(context: Context) -> None:
    context.check("the table of the proved test is that of the rows", http_table.is_current(), True)
    asked = [*rows_in("http.jsonl"), *limits()]
    for number, (what, before, sent, wanted) in enumerate(asked):
        context.check(what, written(context, number, before, sent), wanted)
    tagged = rows_in("conditional.jsonl")
    for number, (what, before, sent, wanted) in enumerate(tagged, len(asked)):
        answers = written(context, number, before, sent, ("--conditional",))
        context.check(what, answers, wanted)
    changes = rows_in("changes.jsonl")
    for number, (what, before, sent, wanted) in enumerate(changes, len(asked) + len(tagged)):
        answers = written(context, number, before, sent, ("--conditional", "--changes"))
        context.check(what, answers, wanted)
    first = len(asked) + len(tagged) + len(changes)
    check_guards(context, first)
    check_status(context, first + 100)
