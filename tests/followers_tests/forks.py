"""Followers that somebody else has given batches, or that are none: no line is sent to them."""

from collections.abc import Iterator
from contextlib import contextmanager
from dataclasses import dataclass
from pathlib import Path

from followers_tests.processes import Process, Script, running, wait_until
from followers_tests.rows import ENDED, LINES, OTHER, TEXTS, lamp, lines_of, text_of
from harness import Context, Server
from messages import open_collection, post

STRAY = text_of("stray", lamp(99))
# Lines of a follower that was sent many, and of its source.
MANY, ALL = 230, 245


@dataclass
class Fork:
    """A follower with a journal of its own, and a source."""

    context: Context
    file: Path
    server: Server

    @property
    def own(self) -> Path:
        return self.file.with_suffix(".own")

    @property
    def source(self) -> Path:
        return self.file.with_suffix(".source")

    def words(self, *more: str | Path) -> list[str]:
        return Script(self.context, "follow.py").command(self.source, self.server.url, *more)

    def row(self, what: str, lines: list[bytes], ends: str | None, kept: list[bytes]) -> None:
        """Sends lines, with the own journal. Wanted: the fault, and what the follower has."""
        self.source.write_bytes(b"".join(lines))
        self.sent(what, ends, kept, "--journal", self.own)

    def sent(self, what: str, ends: str | None, kept: list[bytes], *words: str | Path) -> None:
        given: list[str | Path] = [self.source, self.server.url, *words, "--once"]
        got = Script(self.context, "follow.py").ends(*given)
        self.context.check(what, got, (1, [ends]) if ends else ENDED)
        self.has(what, kept)

    def has(self, what: str, kept: list[bytes]) -> None:
        found = self.own.read_bytes() == b"".join(kept)
        self.context.check(f"{what}: the follower", found, True)

    def post(self, text: bytes) -> int:
        """Somebody else's batch; its serial."""
        (answer,) = self.server.ask(post(text))
        return int(answer.json()["serial"])

    @contextmanager
    def following(self, name: str) -> Iterator[Process]:
        process = Process(self.context, name, self.words("--journal", self.own))
        with running(process):
            yield process


@contextmanager
def fork(context: Context, name: str, *, lines: list[bytes]) -> Iterator[Fork]:
    """A follower that has lines of its source already."""
    file = context.new_file(name)
    context.run("apply", file, sent=b"".join(lines))
    words = ["--clients", "16", "--journal", str(file.with_suffix(".own"))]
    with context.serve(file, *words) as server:
        yield Fork(context, file, server)
    wanted = file.with_suffix(".own").read_bytes()
    context.check(f"{name}: its batches", context.run("batches", file), wanted)


def check_stopped(context: Context) -> None:
    """A batch of somebody else comes while nothing is followed."""
    with fork(context, "forked", lines=[]) as made:
        made.row("the first lines", LINES[:5], None, LINES[:5])
        made.row("more lines", LINES[:7], None, LINES[:7])
        made.post(STRAY)
        kept = [*LINES[:7], *lines_of([STRAY], 8)]
        made.row("a stray batch", LINES, "forked 8 stray is b8 in the source", kept)
        made.row("once more", LINES, "forked 8 stray is b8 in the source", kept)


def check_running(context: Context) -> None:
    """It comes while lines are sent, and before the next one: that one is not sent."""
    strays = {"another key": STRAY, "the next key": text_of("b6", lamp(66))}
    for what, stray in strays.items():
        name = what.replace(" ", "-")
        with fork(context, name, lines=[]) as made:
            made.source.write_bytes(b"".join(LINES[:5]))
            with made.following(f"follow-{name}") as process:
                there = lambda: made.own.read_bytes() == b"".join(LINES[:5])
                wait_until("the first lines", there, context.seconds)
                context.check("a stray batch", made.post(stray), 6)
                with made.source.open("ab") as source:
                    source.write(b"".join(LINES[5:]))
                assert process.process is not None
                context.check("it ends", process.process.wait(context.seconds), 1)
                said = process.log.read_text().splitlines()[-1]
                other = "stray is b6 in the source" if stray == STRAY else "b6 has another text"
                context.check("what it says", said, f"follow: forked 6 {other}")
            made.has(what, [*LINES[:5], *lines_of([stray], 6)])


def check_past(context: Context) -> None:
    """Its history is another one from a line on, with the own journal and without it."""
    forked = lines_of([*TEXTS[:2], OTHER, *TEXTS[3:6]])
    with fork(context, "past", lines=forked) as made:
        later = [*LINES[:6], *lines_of([STRAY], 7)]
        made.source.write_bytes(b"".join(LINES[:3]))
        made.sent("without the journal", "forked 3 key_used", forked)
        made.row("the same lines after it", LINES, "forked 3 b3 has another text", forked)
        made.source.write_bytes(b"".join(later[:5] + lines_of([STRAY], 6)))
        made.sent("with it", "forked 6 b6 is stray in the source", forked, "--journal", made.own)


def check_others(context: Context) -> None:
    """What is at the URL is no follower of this source: it gets nothing."""
    trees = lines_of([text_of("t1", open_collection("trees", title="Trees")), STRAY])[:1]
    with fork(context, "other-town", lines=trees) as made:
        made.source.write_bytes(b"".join(LINES))
        made.sent("another town", "not_a_follower b1", trees)
        made.sent(
            "with its journal", "forked 1 t1 is b1 in the source", trees, "--journal", made.own
        )
        position = made.file.with_suffix(".position")
        position.write_text("3 b3\n")
        made.sent("a position", "position_ahead 3", trees, "--position", position)


def check_places(context: Context) -> None:
    """Where a follower is, of which nothing is known: by the keys that it has."""
    texts = [b'{"edits":[],"key":"m%d"}' % at for at in range(2, ALL)]
    lines = lines_of([TEXTS[0], *texts])
    with fork(context, "many", lines=lines[:MANY]) as made:
        made.source.write_bytes(b"".join(lines[: MANY + 1]))
        made.sent("many lines", None, lines[: MANY + 1])
        made.source.write_bytes(b"".join(lines[:MANY]))
        made.sent("a source that is shorter", None, lines[: MANY + 1])
        made.source.write_bytes(b"".join(lines))
        both = [Process(context, f"both-{it}", made.words()) for it in "ab"]
        with running(*both):
            there = lambda: made.own.stat().st_size == made.source.stat().st_size
            wait_until("two scripts at once", there, context.seconds)
        made.has("two scripts at once", lines)


def check_forks(context: Context) -> None:
    check_stopped(context)
    check_running(context)
    check_past(context)
    check_others(context)
    check_places(context)
