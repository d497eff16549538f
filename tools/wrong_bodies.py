"""Wrong bodies: what an edit changes, in its place or in copies of functions. `refusals.py` has how
a check says that one is refused.

A file NAME.edit of a crate's must-fail/ has pairs of texts, an old and a new one. Each that changes
the bodies of functions alone can be tried beside others, since the proof of a function sees the
contracts of others and not their bodies. A line `proof: whole` says that no written answer refuses
it, so that its copy is tried with its whole proof at once. `rt ci` reads no such line.
"""

import enum
import re
from collections.abc import Iterable
from dataclasses import dataclass
from pathlib import Path

FUNCTION = re.compile(r"^( *)(?:pub(?:\([\w ]+\))? )?(?:const |unsafe )*fn (\w+)", re.MULTILINE)
IMPL = re.compile(
    r"^impl\b(?:<[^{]*?>)? *(?:(?P<trait>\w+)[^{]*? for )?(?P<type>\w+)", re.MULTILINE
)
TACTIC = re.compile(r"^ *#\[tactic\(.*?\)\]\n", re.MULTILINE | re.DOTALL)
WHOLE = "proof: whole"
# A copy's answer for a goal that it has not. For a function with no refused answer the prover runs
# once more, to print what to write for its open goals.
NO_GOAL = "no-such-goal"


@dataclass(frozen=True)
class Function:
    """A function of a crate by its place in the sources."""

    file: str
    lines: range  # from its name to the end of its body
    module: str
    kind: str  # the type of its `impl`, and the trait, or nothing
    name: str

    @property
    def path(self) -> str:
        """A name that the toolchain finds it by. A method's begins with its type, which may stand
        in another module than the `impl`."""
        before = self.kind.replace(" ", "") or self.module
        return f"{before}::{self.name}" if before else self.name

    def is_called(self, path: str) -> bool:
        """Whether the toolchain's name for a function, without its crate, can be this one's."""
        *before, name = path.split("::")
        if name != self.name:
            return False
        if self.kind:
            return before[-1:] in ([self.kind.partition(" ")[0]], [self.kind.replace(" ", "")])
        return before == [it for it in self.module.split("::") if it]


class Way(enum.Enum):
    """How a wrong body is tried beside others. Where the answers alone are read no tactic is tried
    on a goal that has none. An answer that is refused there is refused in the whole proof too,
    which is the dearer the more goals a function has that the wrong body leaves as they are.
    """

    ANSWERS = "a copy of the function, and the answers that are written for it"
    COPY = "a copy of the function, and its whole proof"
    PLACE_ANSWERS = "the function itself, and the answers that are written for it"
    PLACE = "the function itself, and its whole proof"

    @property
    def is_in_place(self) -> bool:
        return self in (Way.PLACE_ANSWERS, Way.PLACE)

    @property
    def reads_answers_alone(self) -> bool:
        return self in (Way.ANSWERS, Way.PLACE_ANSWERS)


@dataclass
class Edit:
    """A wrong body: its file, its pairs of texts, the functions whose bodies it changes, and how it
    is tried."""

    path: str
    pairs: list[tuple[str, str, str]]
    functions: frozenset[Function] | None
    way: Way = Way.PLACE

    @property
    def needs_whole(self) -> bool:
        """Whether its file says that no written answer refuses it."""
        return WHOLE in Path(self.path).read_text(encoding="utf-8").splitlines()

    @property
    def function(self) -> Function:
        """The function of an edit that changes one alone."""
        return next(iter(self.functions or ()))


def pairs_of(path: str) -> list[tuple[str, str, str]]:
    """The file, the old and the new text of each pair of an edit."""
    file, old, found = "", "", []
    for line in Path(path).read_text(encoding="utf-8").split("\n"):
        if line.startswith("file: "):
            file = line.removeprefix("file: ").strip()
        elif line.startswith("old: "):
            old = line.removeprefix("old: ")
        elif line.startswith("new:"):
            found.append((file, old, line.removeprefix("new:").removeprefix(" ")))
    return found


def function_at(file: str, text: str, start: int, end: int) -> Function | None:
    """The function within whose body a part of a file's text stands, if it is one."""
    header = None
    for header in FUNCTION.finditer(text, 0, start):
        pass
    if header is None:
        return None
    indent, name = header[1], header[2]
    opened = re.compile(rf"(?:^{indent}|[^\n]* )\{{$", re.MULTILINE).search(text, header.start())
    closed = re.compile(rf"^{indent}\}}$", re.MULTILINE).search(text, header.start())
    if not opened or not closed or not opened.end() <= start <= end <= closed.start():
        return None
    kind = ""
    if indent:
        for found in IMPL.finditer(text, 0, start):
            kind = found["type"] + (f" {found['trait']}" if found["trait"] else "")
    module = file.removeprefix("src/").removesuffix(".rt").replace("/", "::")
    module = re.sub(r"(^|::)(lib|main|mod)$", "", module)
    lines = range(text.count("\n", 0, header.end()), text.count("\n", 0, closed.end()) + 2)
    return Function(file, lines, module, kind, name)


def read_edit(folder: str, path: str) -> Edit:
    found: set[Function] = set()
    pairs = pairs_of(path)
    for file, old, _ in pairs:
        source = Path(folder, file)
        text = source.read_text(encoding="utf-8") if source.is_file() else ""
        at = text.find(old) if file.startswith("src/") and text.count(old) == 1 else -1
        function = function_at(file, text, at, at + len(old)) if at >= 0 else None
        if function is None:
            return Edit(path, pairs, None)
        found.add(function)
    return Edit(path, pairs, frozenset(found) or None)


def applied(folder: str, edit: Edit, texts: dict[str, str]) -> dict[str, str] | None:
    """The texts of the changed files with an edit too, or None where it can't stand beside them."""
    made = dict(texts)
    for file, old, new in edit.pairs:
        text = made.get(file) or Path(folder, file).read_text(encoding="utf-8")
        if text.count(old) != 1:
            return None
        made[file] = text.replace(old, new)
    return made


def first_line_of(lines: list[str], function: Function) -> int:
    """Where the attributes and the documentation of a function begin, or the line before it."""
    start = function.lines.start - 1
    while start > 0 and lines[start - 1].strip() and lines[start - 1][-1] not in "{};":
        start -= 1
    return start


def text_of(source: str, function: Function) -> str:
    """A function with its attributes, and without its documentation."""
    lines = source.split("\n")
    own = lines[first_line_of(lines, function) : function.lines.stop - 1]
    return "\n".join(line for line in own if not line.lstrip().startswith("///"))


def in_its_impl(source: str, function: Function, text: str) -> str:
    """The text of a method in an `impl` of its own, with all that its own `impl` names."""
    lines = source.split("\n")
    start = function.lines.start - 1
    while not lines[start].startswith("impl"):
        start -= 1
    end = next(at for at in range(start, len(lines)) if lines[at] == "}")
    head = next(at for at in range(start, end) if lines[at].endswith("{"))
    names = [line for line in lines[head:end] if line.startswith("    ghost use ")]
    return "\n".join([*lines[start : head + 1], *names, text, "}"])


def parts_of(function: Function) -> list[str]:
    """The names of the folders of a function's proof."""
    kind = function.kind.replace(" ", "")
    return [it for it in (*function.module.split("::"), kind, function.name) if it]


def is_named(folder: str, function: Function) -> bool:
    """Whether a proof of another function, or a file of lemmas, names the function's modules."""
    own, name = Path(folder, "proofs", *parts_of(function)), f".{'.'.join(parts_of(function))}."
    others = [it for it in Path(folder, "proofs").rglob("*.antt") if own not in it.parents]
    return any(name in it.read_text(encoding="utf-8") for it in others)


def proof_of(folder: str, function: Function, name: str) -> dict[str, str]:
    """The files of a function's proof, for a copy of the function with another name."""
    parts = parts_of(function)
    place, names = Path("proofs", *parts), ".".join(parts)
    renamed = names.removesuffix(function.name) + name
    return {
        str(place.with_name(name) / path.relative_to(Path(folder, place))): re.sub(
            rf"\.{re.escape(names)}\.", f".{renamed}.", path.read_text(encoding="utf-8")
        )
        for path in Path(folder, place).rglob("*.antt")
    }


def calls_itself(function: Function, text: str) -> bool:
    """Whether a function of this text calls itself, or others that call it."""
    own = rf"(?:Self::|{function.kind}::|self\.)" if function.kind else r"(?<![\w.:])(?<!fn )"
    return "#[cycle" in text or re.search(rf"{own}{function.name}\(", text) is not None


def answers_of(folder: str, copy: Function, proof: dict[str, str]) -> dict[str, str]:
    """The file of a copy's answers: those of its proof, and one that is refused (`NO_GOAL`)."""
    parts = parts_of(copy)
    path = str(Path("proofs", *parts, "Answers.antt"))
    goals = f"use Rattle.{Path(folder).name}.proofs.{'.'.join(parts)}.Goals as goal\n"
    answers = proof.get(path, "")
    head = "" if goals in answers else goals
    return {path: f"{head}{answers}\npub {NO_GOAL} : goal.{NO_GOAL}\n{NO_GOAL} c = c\n"}


def has_copy(folder: str, edit: Edit) -> bool:
    """Whether an edit can be made in a copy of its function. Not so of a method of a trait, of
    functions that call themselves, and where other proofs name the function's own modules, which a
    copy would lack."""
    if edit.functions is None or len(edit.functions) != 1:
        return False
    function = edit.function
    text = text_of(Path(folder, function.file).read_text(encoding="utf-8"), function)
    is_of_trait = " " in function.kind
    return not (is_of_trait or calls_itself(function, text) or is_named(folder, function))


def ways_of(folder: str, edit: Edit) -> list[Way]:
    """How an edit is tried beside others, the cheapest first."""
    if edit.functions is None:
        return []
    places = [Path(folder, "proofs", *parts_of(it)) for it in edit.functions]
    is_answered = all((it / "Answers.antt").is_file() for it in places) and not edit.needs_whole
    if has_copy(folder, edit):
        return [Way.ANSWERS, Way.COPY] if is_answered else [Way.COPY]
    return [Way.PLACE_ANSWERS, Way.PLACE] if is_answered else [Way.PLACE]


def with_no_tactics(text: str) -> str:
    """The text of a function whose goals are left to written answers, in as many lines."""
    text = TACTIC.sub(lambda it: "\n" * it[0].count("\n"), text)
    return FUNCTION.sub(lambda it: it[0].replace(it[1], f"{it[1]}#[tactic(none)] ", 1), text, 1)


def in_place_with_no_tactics(text: str, function: Function) -> str:
    """The text of a file in which the goals of a function are left to written answers."""
    lines = text.split("\n")
    start, stop = first_line_of(lines, function), function.lines.stop - 1
    lines[start:stop] = with_no_tactics("\n".join(lines[start:stop])).split("\n")
    return "\n".join(lines)


def in_copy(folder: str, edit: Edit, texts: dict[str, str], number: int) -> dict[str, str]:
    """The texts of the changed files, and an edit in a copy of its function behind all else of the
    file. The copy's name has the number."""
    function = edit.function
    source = Path(folder, function.file).read_text(encoding="utf-8")
    text = text_of(source, function)
    for _, old, new in edit.pairs:
        text = text.replace(old, new)
    copy = copy_of(function, number)
    text = re.sub(rf"\bfn {function.name}\b", f"fn {copy.name}", text)
    if edit.way.reads_answers_alone:
        text = with_no_tactics(text)
    if function.kind:
        text = in_its_impl(source, function, text)
    proof = proof_of(folder, function, copy.name)
    made = {**texts, **proof, **answers_of(folder, copy, proof)}
    made[function.file] = f"{texts.get(function.file, source)}\n{text}\n"
    return made


def copy_of(function: Function, number: int) -> Function:
    """The copy of a function that has this number."""
    name = f"{function.name}_in_copy_{number}"
    return Function(function.file, range(0), function.module, function.kind, name)


def round_in_place(folder: str, edits: Iterable[Edit]) -> tuple[list[Edit], dict[str, str]]:
    """The first edits that can be made together, each in functions of its own."""
    texts: dict[str, str] = {}
    taken: list[Edit] = []
    used: set[Function] = set()
    for edit in edits:
        if edit.functions is None or edit.functions & used:
            continue
        made = applied(folder, edit, texts)
        if made is not None:
            for function in edit.functions if edit.way.reads_answers_alone else ():
                made[function.file] = in_place_with_no_tactics(made[function.file], function)
            texts, used = made, used | edit.functions
            taken.append(edit)
    return taken, texts


def round_in_copies(folder: str, edits: Iterable[Edit]) -> tuple[list[Edit], dict[str, str]]:
    """Edits in copies of their functions, each with its copy's name, and the changed texts."""
    texts: dict[str, str] = {}
    taken: list[Edit] = []
    for number, edit in enumerate(edits):
        texts = in_copy(folder, edit, texts, number)
        copies = frozenset([copy_of(edit.function, number)])
        taken.append(Edit(edit.path, edit.pairs, copies, edit.way))
    return taken, texts
