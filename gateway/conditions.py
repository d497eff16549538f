"""Conditions of requests (RFC 9110, 13): entity tags, the fields that name them, and what holds."""

import re
from dataclasses import dataclass
from typing import NamedTuple

from starlette.datastructures import Headers

from .problems import Problem

ANY = "*"
MATCH, NONE_MATCH = "If-Match", "If-None-Match"
# A tag (8.8.3), and an element of a list of tags, which may be empty, with what ends it (5.6.1.2).
ONE = re.compile(r'(W/)?"([\x21\x23-\x7e]*)"')
ELEMENT = re.compile(r'[ \t]*(?:(W/)?"([\x21\x23-\x7e\x80-\xff]*)"[ \t]*)?(?:,|\Z)')


class EntityTag(NamedTuple):
    """An entity tag (8.8.3)."""

    text: str
    is_weak: bool = False

    @classmethod
    def of(cls, field: str) -> "EntityTag | None":
        """The tag of a field, which is of ASCII here; None if it is none."""
        found = ONE.fullmatch(field)
        return None if found is None else cls(found[2], found[1] is not None)

    def __str__(self) -> str:
        return f'{"W/" if self.is_weak else ""}"{self.text}"'


@dataclass(frozen=True)
class Named:
    """What a field names: some tags, or by `*` whatever is there."""

    tags: tuple[EntityTag, ...] = ()
    is_any: bool = False

    def has(self, tag: EntityTag | None) -> bool:
        """Whether a tag is among them by the weak comparison (8.8.3.2)."""
        return tag is not None and any(each.text == tag.text for each in self.tags)

    def has_strong(self, tag: EntityTag | None) -> bool:
        """Whether a tag is among them by the strong comparison."""
        return tag is not None and not tag.is_weak and tag in self.tags


def read_named(headers: Headers, name: str) -> Named | None:
    """What the fields of a name list; None without one."""
    fields = headers.getlist(name)
    text = ",".join(fields)
    if not fields or text.strip(" \t") == ANY:
        return Named(is_any=True) if fields else None
    tags: list[EntityTag] = []
    at = 0
    while at < len(text):
        element = ELEMENT.match(text, at)
        if element is None:
            detail = f"{name} must be * alone, or a list of entity tags, each in quotation marks."
            raise Problem(400, "bad_condition", detail)
        if element[2] is not None:
            tags.append(EntityTag(element[2], element[1] is not None))
        at = element.end()
    return Named(tuple(tags))


@dataclass(frozen=True)
class Conditions:
    """The conditions of a request, each None without its field."""

    match: Named | None
    none_match: Named | None

    def is_matched(self, is_there: bool, tag: EntityTag | None) -> bool:
        """Whether If-Match holds (13.1.1) of what is there, and of its tag if it has one."""
        if self.match is None:
            return True
        return is_there if self.match.is_any else self.match.has_strong(tag)

    def is_new(self, is_there: bool, tag: EntityTag | None) -> bool:
        """Whether If-None-Match holds (13.1.2) of what is there."""
        if self.none_match is None:
            return True
        return not is_there if self.none_match.is_any else not self.none_match.has(tag)

    @property
    def need_tag(self) -> bool:
        """Whether one of them depends on the tag of what is there."""
        return any(each is not None and not each.is_any for each in (self.match, self.none_match))


def read_conditions(headers: Headers) -> Conditions:
    """The conditions of a request; a Problem if a field is no list of tags."""
    return Conditions(read_named(headers, MATCH), read_named(headers, NONE_MATCH))


def failed(detail: str) -> Problem:
    return Problem(412, "condition_failed", detail)
