"""Entity tags of what the gateway shows.

A feature has a tag of its own text, as the server keeps it, which a change of another feature
leaves as it is. It is the same in each reference system, and strong if the server gives tags of its
states: only then can an edit act on the very text that had it. A page, a collection or the list of
collections has a weak tag: the server's tag of the state, and after a point a digest of what else
makes it. So whoever has the tag can be answered by the server's word that its state is the same.
"""

import base64
import hashlib
from collections.abc import Iterator

import pyproj
from starlette.requests import Request

from .conditions import EntityTag, Named
from .settings import Settings
from .systems import Systems

# What surrounds the links of a feature, in the order of its members. Quotation marks within texts
# are escaped, so neither can be part of an id or of a link.
LINKS, PROPERTIES = b',"links":[', b'],"properties":'
DIGEST_BYTES = 16
# A tag of a state is not longer than this; the server reads heads of 16,384 bytes.
LONGEST_STATE = 200
# The settings that answers depend on.
SHOWN = {"title", "description", "contact", "address", "system"}


def own_text(feature: bytes) -> bytes:
    """A feature without its links, as the server writes it."""
    before, _, linked = feature.partition(LINKS)
    _, mark, after = linked.partition(PROPERTIES)
    return before + mark[1:] + after if mark else feature


class Tags:
    """Makes tags, which are others after a change of settings or versions that answers depend
    on."""

    def __init__(self, settings: Settings, systems: Systems, version: str) -> None:
        has_tiles = settings.mirror and settings.mirror.tiles
        operation = systems.operation.transformer.description
        made_by = (version, pyproj.__proj_version__, operation, settings.dict(include=SHOWN))
        self.made_by = repr((made_by, has_tiles)).encode()

    def digest(self, *parts: bytes) -> str:
        """A digest of parts, of which each begins where it does."""
        made = hashlib.sha256(self.made_by)
        for part in parts:
            made.update(b"%d:" % len(part) + part)
        return base64.urlsafe_b64encode(made.digest()[:DIGEST_BYTES]).rstrip(b"=").decode()

    def of_feature(self, text: bytes, state: EntityTag | None, is_html: bool = False) -> EntityTag:
        """The tag of a feature with this text. HTML is another representation of it."""
        digest = self.digest(b"html" if is_html else b"json", text)
        return EntityTag(digest, is_weak=is_html or state is None)

    def form(self, request: Request, is_html: bool) -> str:
        """The digest of what makes an answer, beside the state."""
        scope = request.scope
        return self.digest(
            b"html" if is_html else b"json", scope["raw_path"], scope["query_string"]
        )


def of_state(state: EntityTag, form: str) -> EntityTag:
    """The tag of what a state shows in a form."""
    return EntityTag(f"{state.text}.{form}", is_weak=True)


def states_of(named: Named | None, form: str) -> Iterator[EntityTag]:
    """The states whose tags, in a form, a request names."""
    for tag in named.tags if named is not None else ():
        state, _, its_form = tag.text.rpartition(".")
        if its_form == form and state.isascii() and 1 <= len(state) <= LONGEST_STATE:
            yield EntityTag(state)
