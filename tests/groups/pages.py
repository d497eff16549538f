"""Pages of boxes as features come, move and go, beside what plain Python finds.

A first collection has more features than a chunk of the index holds, half of them under ids that
follow their places. A second one has more than are learnt in order of their ids, and its rows are
among those of a third.
"""

from collections.abc import Iterator
from random import Random

from harness import Context
from messages import Answer, Edit, batch, delete, feature, get, open_collection, point, put

ROWS, OTHERS, TURNS, LIMIT = 2_500, 2_500, 60, 20
# More than 32,768, and the most edits of a batch.
MANY, FEW, A_BATCH = 33_000, 3_000, 10_000
Place = tuple[int, int]
Page = tuple[list[str], int]


class Town:
    """Features that are points, or have no geometry, and the edits that change them."""

    def __init__(self, seed: int, collection: str = "lamps") -> None:
        self.random = Random(seed)
        self.collection = collection
        self.places: dict[str, Place | None] = {}

    def some_place(self, size: int) -> Place:
        return self.random.randrange(-size, size), self.random.randrange(-size, size)

    def some_name(self) -> str:
        return f"{self.random.getrandbits(64):016x}"

    def put(self, operation: str, name: str, place: Place | None) -> Edit:
        self.places[name] = place
        return put(operation, self.collection, feature(name, place and point(*place)))

    def delete(self, name: str) -> Edit:
        del self.places[name]
        return delete(self.collection, name)

    def first_edits(self) -> list[Edit]:
        edits = []
        for at in range(ROWS):
            corner = (at % 50 * 40 - 1000, at // 50 * 40 - 1000)
            edits.append(self.put("insert", f"row-{at:04}", corner))
        return edits + self.scattered(OTHERS)

    def scattered(self, count: int) -> list[Edit]:
        """Inserts of features under ids in no order, one in a hundred without a place."""
        edits = []
        for _ in range(count):
            place = self.some_place(1000) if self.random.random() < 0.99 else None
            edits.append(self.put("insert", self.some_name(), place))
        self.random.shuffle(edits)
        return edits

    def next_edits(self) -> list[Edit]:
        names = self.random.sample(sorted(self.places), 12)
        edits = [self.delete(name) for name in names[:4]]
        edits += [self.put("replace", name, self.some_place(1000)) for name in names[4:]]
        for _ in range(40):
            edits.append(self.put("insert", self.some_name(), self.some_place(1100)))
        return edits

    def pages(self) -> Iterator[tuple[bytes, Page]]:
        """Requests for pages of boxes, and what they show of the features as they are now."""
        for size in (3, 20, 200):
            west, south = self.some_place(1000)
            east, north = west + size, south + size
            found = sorted(
                name
                for name, place in self.places.items()
                if place and west <= place[0] <= east and south <= place[1] <= north
            )
            box = f"{west},{south},{east},{north}"
            sent = get(f"/collections/{self.collection}/items?bbox={box}&limit={LIMIT}")
            yield sent, (found[:LIMIT], len(found))


def page_of(answer: Answer) -> Page:
    page = answer.json()
    return [it["id"] for it in page["features"]], page["numberMatched"]


def check_pages(context: Context, what: str, answers: list[Answer], wanted: list[Page]) -> None:
    """Whether each request was answered, and each page is the one that is wanted."""
    context.check(f"{what}: each is answered", {answer.status for answer in answers}, {200})
    found = [page_of(answer) for answer in answers if b"FeatureCollection" in answer.body]
    context.check(f"{what}: the number of pages", len(found), len(wanted))
    for number, (got, page) in enumerate(zip(found, wanted)):
        context.check(f"{what}: page {number}", got, page)


def check_changes(context: Context) -> None:
    """Pages between batches of edits, which the index follows."""
    town, requests, wanted = Town(1), [], []

    def look() -> None:
        for sent, page in town.pages():
            requests.append(sent)
            wanted.append(page)

    requests.append(batch("all", [open_collection("lamps"), *town.first_edits()]))
    for turn in range(TURNS):
        look()
        requests.append(batch(f"b{turn}", town.next_edits()))
    look()
    answers = context.pipe(context.new_file("town.db"), *requests)
    check_pages(context, "a town", answers, wanted)


def check_many(context: Context) -> None:
    """A large collection whose rows are among those of another, both learnt from the file."""
    towns = [Town(2, "lamps"), Town(3, "trees")]
    edits = towns[0].scattered(MANY) + towns[1].scattered(FEW)
    towns[0].random.shuffle(edits)
    edits = [open_collection(town.collection) for town in towns] + edits
    starts = range(0, len(edits), A_BATCH)
    batches = [batch(f"b{start}", edits[start : start + A_BATCH]) for start in starts]
    file = context.new_file("many.db", *batches)
    requests, wanted = [], []
    for turn in range(4):
        for sent, page in [*towns[0].pages(), *towns[1].pages()]:
            requests.append(sent)
            wanted.append(page)
        requests.append(batch(f"c{turn}", towns[turn % 2].next_edits()))
    check_pages(context, "a large town", context.pipe(file, *requests), wanted)


def run(context: Context) -> None:
    check_changes(context)
    check_many(context)
