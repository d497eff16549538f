"""Pages of features, filled from pages of the server until the limit is reached.

The features of a page are those that follow an id, in byte order, so a page depends on its query
and the server's state alone. Of a box that has to be tested, a page takes at most one page of the
server and MORE further ones. It may then be short and still go on.
"""

from dataclasses import dataclass
from functools import partial

from .boxes import NOWHERE, Region
from .client import ServerReads
from .features import Feature, transformed_page, transformed_texts
from .meeting import meeting
from .query import MOST, ItemsQuery

MORE = 20
# Each further page of the server is this many times as long, up to the most.
GROWTH = 4
# One in this many more is requested than are shown, for those of the bounds that do not meet.
RESERVE = 8


@dataclass(frozen=True)
class Filled:
    """A page: the texts of its features with commas between, how many they are, the id after which
    the next page begins, and how many match in all, if that is known."""

    text: str
    count: int
    after: str | None
    matched: int | None
    serial: int | None = None


async def fill(client: ServerReads, collection: str, query: ItemsQuery) -> Filled:
    """The page of a query."""
    region = await region_of(client, collection, query)
    if region is None or (region.is_exact and region.bounds is not None):
        return await exact_page(client, collection, query, region)
    if region.bounds is None:
        return await empty_page(client, collection, query)
    return await tested_page(client, collection, query, region)


async def region_of(client: ServerReads, collection: str, query: ItemsQuery) -> Region | None:
    """The part of the query's box that can select a feature that the collection has now; None
    without a box."""
    if query.box is None:
        return None
    box = query.box_system.box(query.box)
    if box.whole is not None:
        return Region(box.whole)
    shown = await client.collection(collection)
    if "extent" not in shown:
        return NOWHERE
    west, south, east, north = shown["extent"]["spatial"]["bbox"][0]
    return box.region((west, south, east, north))


async def exact_page(
    client: ServerReads, collection: str, query: ItemsQuery, region: Region | None
) -> Filled:
    """The page of the server itself."""
    asked = server_query(query, region, query.limit, query.after)
    page = await client.page_by(partial(transformed_page, system=query.system), collection, asked)
    return Filled(page.text, page.count, page.last if page.goes_on else None, page.matched)


async def empty_page(client: ServerReads, collection: str, query: ItemsQuery) -> Filled:
    """The page of a box beyond all features; the server judges the rest of the query."""
    await client.page(collection, server_query(query, None, 1, query.after))
    return Filled("", 0, None, 0)


async def tested_page(
    client: ServerReads, collection: str, query: ItemsQuery, region: Region
) -> Filled:
    """The features of the server's pages that meet the region, until they are enough. How many
    match is known if the first page has them all."""
    found, after = await tested_features(client, collection, query, region)
    is_whole = query.after is None and after is None
    text = ",".join(transformed_texts(found, query.system))
    return Filled(text, len(found), after, len(found) if is_whole else None)


async def tested_features(
    client: ServerReads, collection: str, query: ItemsQuery, region: Region
) -> tuple[list[Feature], str | None]:
    """These features, and the id after which the next page begins."""
    found: list[Feature] = []
    after = query.after
    for number in range(1 + MORE):
        # Most features of the bounds meet the region, so the first page is mostly enough.
        size = min((query.limit + query.limit // RESERVE) * GROWTH**number, MOST)
        page = await client.page(collection, server_query(query, region, size, after))
        is_met = meeting([feature.geometry for feature in page.features], region)
        found += [feature for feature, meets in zip(page.features, is_met) if meets]
        if len(found) > query.limit:
            shown = found[: query.limit]
            return shown, shown[-1].id
        if not page.goes_on:
            return found, None
        after = page.features[-1].id
        if len(found) == query.limit:
            break
    return found, after


def server_query(
    query: ItemsQuery, region: Region | None, limit: int, after: str | None
) -> dict[str, str]:
    """The query for the server: the bounds of the region, and the rest as it was requested."""
    asked = {"limit": str(limit)}
    if after is not None:
        asked["after"] = after
    if region is not None and region.bounds is not None:
        asked["bbox"] = ",".join(map(str, region.bounds))
    if query.datetime is not None:
        asked["datetime"] = query.datetime
    return asked
