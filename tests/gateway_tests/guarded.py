"""Edits under conditions, over a server that gives tags: which act, which act once, and that none
replaces what its client has not seen."""

import json
from collections.abc import Iterator
from pathlib import Path
from typing import Any

from conditional import Watched
from gateway_tests.answers import check_problem
from gateway_tests.data import batch, feature, insert, shape
from gateway_tests.service import WRITER, Gateway, gateway
from harness import Context

ITEMS = "/collections/lamps/items"
ITEM = f"{ITEMS}/guarded"
MERGE = "application/merge-patch+json"
EDITS = ("PUT", "PATCH", "DELETE")
REQUIRED = "[edits]\nrequire_if_match = true\n" + WRITER
TURNS = 10


def lamp(number: int, name: str = "guarded") -> dict[str, Any]:
    return feature(name, shape("Point", [9.98, 53.55]), {"no": number})


def grid_lamp(number: int, name: str = "guarded") -> dict[str, Any]:
    """A lamp as the server has it."""
    return feature(name, shape("Point", [1, 2]), {"no": number})


def number_of(asked: Gateway, path: str = ITEM) -> Any:
    """The number of a feature; none if it is not there."""
    answer = asked.ask(path)
    return answer.json()["properties"]["no"] if answer.status_code == 200 else None


def tag_of(asked: Gateway, path: str = ITEM) -> str:
    return asked.ask(path).headers["etag"]


def put_back(asked: Gateway) -> None:
    """The feature as it was, whether it was changed or deleted."""
    if asked.send("PUT", ITEM, lamp(0)).status_code == 404:
        asked.send("POST", ITEMS, lamp(0))


def edit(asked: Gateway, method: str, number: int, path: str = ITEM, **fields: str) -> Any:
    """An edit of a feature by a method, which gives it a number, or deletes it."""
    if method == "PATCH":
        body = json.dumps({"properties": {"no": number}}).encode()
        return asked.send(method, path, body, Content_Type=MERGE, **fields)
    name = path.rpartition("/")[2]
    return asked.send(method, path, None if method == "DELETE" else lamp(number, name), **fields)


def rows(tag: str) -> Iterator[tuple[dict[str, str], int]]:
    """Fields of an edit of a feature that has a tag, and what is answered: 204, and then the edit
    acts, or a refusal."""
    for field in (tag, f'"a", {tag}', f'{tag},, W/"b"', "*"):
        yield {"If_Match": field}, 204
    for field in ('"a"', f"W/{tag}", "", ",", tag.swapcase(), f'"a",W/{tag}'):
        yield {"If_Match": field}, 412
    for field in (f"{tag}, *", tag[1:-1], "**", f"{tag} {tag}"):
        yield {"If_Match": field}, 400
    for field in ("*", tag, f"W/{tag}", f'"a", {tag}'):
        yield {"If_None_Match": field}, 412
    for field in ('"a"', "", 'W/"a"'):
        yield {"If_None_Match": field}, 204
    yield {"If_None_Match": "a"}, 400
    yield {"If_Match": tag, "If_None_Match": '"a"'}, 204
    yield {"If_Match": tag, "If_None_Match": tag}, 412
    yield {"If_Match": '"a"', "If_None_Match": '"a"'}, 412


CODES = {400: "bad_condition", 412: "condition_failed"}


def check_conditions(context: Context, asked: Gateway) -> None:
    """If-Match by the strong comparison, If-None-Match by the weak one, of each method."""
    put_back(asked)
    for method in EDITS:
        for fields, status in rows(tag_of(asked)):
            answer = edit(asked, method, 1, **fields)
            what = f"{method} {fields}"
            acted = (None if method == "DELETE" else 1) if status == 204 else 0
            context.check(what, (answer.status_code, number_of(asked)), (status, acted))
            if status != 204:
                check_problem(context, answer, status, CODES[status])
            put_back(asked)
    check_missing(context, asked)
    check_creation(context, asked)
    html = asked.ask(ITEM, f="html").headers["etag"]
    weak = edit(asked, "PUT", 1, If_Match=html)
    check_problem(context, weak, 412, "condition_failed")


def check_missing(context: Context, asked: Gateway) -> None:
    """Of what is not there If-Match never holds, and If-None-Match always."""
    path, tag = f"{ITEMS}/missing", tag_of(asked)
    for method in EDITS:
        for field in (tag, "*", '"a"'):
            answer = edit(asked, method, 1, path, If_Match=field)
            check_problem(context, answer, 412, "condition_failed")
            answer = edit(asked, method, 1, path, If_None_Match=field)
            check_problem(context, answer, 404, "no_feature")
    context.check("nothing is made", asked.ask(path).status_code, 404)


def check_creation(context: Context, asked: Gateway) -> None:
    """A POST names the features of a collection, whose tag is weak."""
    page = tag_of(asked, ITEMS)
    for fields in ({"If_Match": page}, {"If_Match": '"a"'}, {"If_None_Match": "*"}):
        answer = asked.send("POST", ITEMS, lamp(1, "made"), **fields)
        check_problem(context, answer, 412, "condition_failed")
    check_problem(context, asked.send("POST", ITEMS, lamp(1), If_Match="a"), 400, "bad_condition")
    made = asked.send("POST", ITEMS, lamp(1, "made"), If_Match="*")
    context.check("made", made.status_code, 201)
    context.check("deleted", edit(asked, "DELETE", 1, f"{ITEMS}/made").status_code, 204)


def kept_batches(context: Context, file: Path) -> int:
    """How many batches the journal of the file has."""
    return file.with_name(f"{file.name}.journal").read_bytes().count(b"\n")


def check_repeats(context: Context, asked: Gateway, file: Path) -> None:
    """With an Idempotency-Key an edit under If-Match that is sent again is answered as the first
    time, though the tag is another by then, and acts once: also after others have changed the
    feature, or deleted it. What has not acted is refused each time."""
    for method in EDITS:
        put_back(asked)
        tag, key = tag_of(asked), f"once {method}"
        fields = {"If_Match": tag, "Idempotency_Key": key}
        before = kept_batches(context, file)
        answers = [edit(asked, method, 1, **fields).status_code for _ in range(2)]
        context.check(f"{method} twice", answers, [204, 204])
        context.check(f"{method}: acts once", kept_batches(context, file) - before, 1)
        put_back(asked)
        context.check(f"{method} later", edit(asked, method, 1, **fields).status_code, 204)
        context.check(f"{method}: nothing acts", number_of(asked), 0)
        asked.send("DELETE", ITEM)
        context.check(f"{method} at last", edit(asked, method, 1, **fields).status_code, 204)
        put_back(asked)
        loose = edit(asked, method, 1, If_Match='"a"', Idempotency_Key=f"never {method}")
        check_problem(context, loose, 412, "condition_failed")
        tag = tag_of(asked)
        late = edit(asked, method, 2, If_Match=tag, Idempotency_Key=f"never {method}")
        context.check(f"{method}: a key that was not used", late.status_code, 204)
    put_back(asked)
    other = edit(asked, "PUT", 7, If_Match='"a"', Idempotency_Key="once PUT")
    check_problem(context, other, 409, "key_used")
    check_patches_again(context, asked)


def check_patches_again(context: Context, asked: Gateway) -> None:
    """A patch without If-Match that is sent again acts once, also if the feature is another by
    then."""
    for number in (1, 2):
        sent = edit(asked, "PATCH", 5, Idempotency_Key="patch")
        context.check(f"patch {number}", (sent.status_code, number_of(asked)), (204, 5))
    edit(asked, "PUT", 6)
    sent = edit(asked, "PATCH", 5, Idempotency_Key="patch")
    context.check("patch 3", (sent.status_code, number_of(asked)), (204, 6))


def other_batch(key: str, number: int, name: str) -> bytes:
    """A batch of another client."""
    edit = insert("lamps", grid_lamp(number, name)) | {"op": "replace"}
    return batch(key, [edit])


def check_meanwhile(context: Context, asked: Gateway, server: Watched) -> None:
    """Another batch is accepted between what the gateway has read and the batch that it sends. If
    it changes another feature, the edit acts on the second try. If it changes this one, the edit
    is refused, and what the other wrote stays. If others are faster each time, it gives up."""
    made = server.proxy
    asked.send("POST", ITEMS, lamp(0, "beside"))
    for method in EDITS:
        put_back(asked)
        tag = tag_of(asked)
        made.meanwhile.append(other_batch(f"beside-{method}", 3, "beside"))
        answer = edit(asked, method, 1, If_Match=tag)
        context.check(f"{method}: another feature", answer.status_code, 204)
        context.check("what the other wrote", number_of(asked, f"{ITEMS}/beside"), 3)
        put_back(asked)
        tag = tag_of(asked)
        made.meanwhile.append(other_batch(f"same-{method}", 9, "guarded"))
        answer = edit(asked, method, 1, If_Match=tag)
        check_problem(context, answer, 412, "condition_failed")
        context.check(f"{method}: nobody is overwritten", number_of(asked), 9)
        put_back(asked)
        tag = tag_of(asked)
        keys = [f"many-{method}-{turn}" for turn in range(TURNS)]
        made.meanwhile += [other_batch(key, 4, "beside") for key in keys]
        answer = edit(asked, method, 1, If_Match=tag)
        check_problem(context, answer, 503, "overtaken")
        got = (answer.headers["retry-after"], number_of(asked), len(made.meanwhile))
        context.check(f"{method}: it gives up", got, ("1", 0, 0))
    put_back(asked)
    made.meanwhile.append(other_batch("patched", 9, "guarded"))
    answer = asked.send("PATCH", ITEM, b'{"properties":{"mine":1}}', Content_Type=MERGE)
    shown = asked.ask(ITEM).json()["properties"]
    wanted = (204, {"mine": 1, "no": 9})
    context.check("a patch keeps what another wrote", (answer.status_code, shown), wanted)
    put_back(asked)


def check_required(context: Context, server: Watched) -> None:
    """With `require_if_match` an edit of a feature without If-Match is refused (RFC 6585, 3); a
    feature is created without one."""
    without: list[dict[str, str]] = [{}, {"If_None_Match": '"a"'}, {"If_None_Match": "*"}]
    with gateway(context, server.url, more=REQUIRED) as asked:
        before = number_of(asked)
        for method in EDITS:
            for fields in without:
                answer = edit(asked, method, 1, **fields)
                check_problem(context, answer, 428, "no_condition")
            check_problem(context, edit(asked, method, 1, Authorization=""), 401, "no_access")
        context.check("nothing acted", number_of(asked), before)
        answer = edit(asked, "PUT", 1, If_Match=tag_of(asked))
        context.check("with If-Match", (answer.status_code, number_of(asked)), (204, 1))
        context.check("with *", edit(asked, "PUT", 0, If_Match="*").status_code, 204)
        made = asked.send("POST", ITEMS, lamp(1, "new"))
        context.check("created", made.status_code, 201)
        context.check("read", asked.ask(ITEM).status_code, 200)
