"""How a check of wrong bodies says that one is refused."""

import re

from wrong_bodies import NO_GOAL, Edit, Function

STATUS = re.compile(r"^fn (\S+): (proved|not proved|no proof)(.*)$", re.MULTILINE)
# What the prover says of a goal that stays open, by its place in the sources.
OPEN_GOAL = re.compile(
    r"note: src/\S+: (?:it is not proved|this goal needs an answer|`search` found no proof)"
)
# What a proof file says where it names what an edit took away, which shows little of a contract.
LOST_NAME = re.compile(r"has no field|is not in scope|has no `|was not admitted")


def messages_of(output: str) -> list[str]:
    """What a check says: each message with the lines behind it that begin with a space."""
    return re.split(r"\n(?! )", output)


def is_of(message: str, path: str, function: Function) -> bool:
    """Whether a message of a check speaks of a goal of a function, by its proofs or its source."""
    if message.startswith(f"./proofs/{path.replace('::', '/')}/") and ": error" in message:
        return True
    at = re.match(r"note: (\S+?):(\d+):", message)
    return at is not None and at[1] == function.file and int(at[2]) in function.lines


def refused_answers(path: str, messages: list[str]) -> list[str]:
    """What refuses an answer of a function, by its path below the crate."""
    proofs = f"./proofs/{path.replace('::', '/')}/"
    told = [it for it in messages if it.startswith(proofs) and ": error" in it]
    return [it for it in told if f"`{NO_GOAL}`" not in it]


def is_lost_name(message: str) -> bool:
    """Whether an answer is refused because it names what a wrong body took away."""
    return LOST_NAME.search(message) is not None


def errors_of(path: str, messages: list[str]) -> list[str]:
    """What refuses an answer of a function at what it shows, and not over a lost name."""
    return [it for it in refused_answers(path, messages) if not is_lost_name(it)]


def fails_itself(path: str, behind: str, messages: list[str]) -> bool:
    """Whether a function that is not proved fails at a goal of its own, whatever it calls: an
    answer is refused, or a goal that was tried is open. One that waits for the proof of what the
    function calls is not tried."""
    return bool(errors_of(path, messages)) or "`search` did not prove" in behind


def open_goals(messages: list[str]) -> dict[str, list[str]]:
    """What a check says of the open goals of each function, in front of the function's own line."""
    found: dict[str, list[str]] = {}
    goals: list[str] = []
    for message in messages:
        status = STATUS.match(message)
        if status:
            found[status[1]], goals = goals, []
        elif OPEN_GOAL.match(message):
            goals.append(message)
    return found


def refusal_of_copy(crate: str, edit: Edit, output: str) -> str | None:
    """The message that refuses an answer of a copy, or says that a goal of it is open, if one does.
    Where the answers alone were read one of them has to be refused at what it shows. Where the
    whole proof was, one that names what the wrong body took away counts at last: so it does in a
    check of the wrong body alone, which reads the same proof."""
    messages = messages_of(output)
    for path, status, _ in STATUS.findall(output):
        inside = path.removeprefix(f"{crate}::")
        if status != "proved" and edit.function.is_called(inside):
            found = errors_of(inside, messages)
            if not edit.way.reads_answers_alone:
                found += open_goals(messages).get(path, []) + refused_answers(inside, messages)
            return next(iter(found), None)
    return None


def refusal(crate: str, edit: Edit, output: str, is_apart: bool) -> str | None:
    """The message that refuses a function of the edit at a goal of its own, if one does. A function
    that calls one which is not proved counts where it fails itself, and no function that no edit
    touches does (`is_apart`). Where the answers alone were read one of them has to be refused."""
    if not edit.way.is_in_place:
        return refusal_of_copy(crate, edit, output)
    messages = messages_of(output)
    for path, status, behind in STATUS.findall(output):
        inside = path.removeprefix(f"{crate}::")
        # A goal of its own is open: an answer is refused, or none is found and none is written.
        is_own = status == "not proved" or behind.startswith(": expected answers")
        function = next((it for it in edit.functions or () if it.is_called(inside)), None)
        if function is None or not is_own:
            continue
        if "it calls" in behind and not (is_apart and fails_itself(inside, behind, messages)):
            continue
        if edit.way.reads_answers_alone:
            return next(iter(errors_of(inside, messages)), None)
        told = [it for it in messages if is_of(it, inside, function)]
        told.sort(key=lambda it: bool(LOST_NAME.search(it)))
        return told[0] if told else f"fn {path}: {status}{behind}"
    return None


def only_edited(crate: str, edits: list[Edit], output: str) -> bool:
    """Whether each function that fails itself is one that an edit changes."""
    edited = [function for edit in edits for function in edit.functions or ()]
    messages = messages_of(output)
    for path, status, behind in STATUS.findall(output):
        inside = path.removeprefix(f"{crate}::")
        if status != "proved" and fails_itself(inside, behind, messages):
            if not any(it.is_called(inside) for it in edited):
                return False
    return True
