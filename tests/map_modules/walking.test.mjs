import assert from "node:assert/strict";
import { test } from "node:test";
import { newArea, progressOf, walk } from "../../map/modules/walking.js";

const BOX = { x0: 0, y0: 0, x1: 9, y1: 9 };
const of = (id) => ({ type: "Feature", id, geometry: null, properties: null });
const PAGES = {
  "lamps 1": { features: [of("a"), of("b")], numberMatched: 3, next: "lamps 2" },
  "lamps 2": { features: [of("c")], numberMatched: 3, next: null },
  "trees 1": { features: [of("t")], numberMatched: 1, next: null },
};

/** A way over the pages, which notes what happens, and is cut before a page. */
function wayOver({ cut = "", isWanted = () => true } = {}) {
  const seen = { read: [], kept: [], noted: [], finished: [] };
  const way = {
    first: (collection) => `${collection} 1`,
    read: async (target) => {
      if (target === cut) throw new Error("cut");
      seen.read.push(target);
      return PAGES[target] ?? null;
    },
    keep: async (_, features) => void seen.kept.push(...features.map(({ id }) => id)),
    note: async (area) => {
      seen.noted.push(structuredClone(area));
      return isWanted(area);
    },
    finish: async ({ collection }, ids) => void seen.finished.push([collection, [...ids]]),
  };
  return { way, seen };
}

const counted = [
  { collection: "lamps", matched: 3 },
  { collection: "trees", matched: 1 },
];

test("all pages of all collections are kept", async () => {
  const area = newArea(1, BOX, counted);
  const { way, seen } = wayOver();
  assert.deepEqual(progressOf(area), { count: 0, matched: 4, isDone: false });
  await walk(area, way);
  assert.deepEqual(seen.kept, ["a", "b", "c", "t"]);
  assert.deepEqual(seen.finished, [["lamps", ["a", "b", "c"]], ["trees", ["t"]]]);
  assert.deepEqual(progressOf(area), { count: 4, matched: 4, isDone: true });
  assert.equal(area.bytes, 4 * JSON.stringify(of("a")).length);
});

test("it goes on where it was cut, from what was noted", async () => {
  const area = newArea(1, BOX, counted);
  const first = wayOver({ cut: "lamps 2" });
  await assert.rejects(walk(area, first.way), /cut/);
  const noted = first.seen.noted.at(-1);
  assert.deepEqual(progressOf(noted), { count: 2, matched: 4, isDone: false });
  const second = wayOver();
  await walk(noted, second.way);
  assert.deepEqual(second.seen.read, ["lamps 2", "trees 1"]);
  // What was walked in two goes is not all known: nothing is forgotten by it.
  assert.deepEqual(second.seen.finished, [["trees", ["t"]]]);
  assert.equal(progressOf(noted).isDone, true);
});

test("an area that is not wanted any more is left", async () => {
  const area = newArea(1, BOX, counted);
  const { way, seen } = wayOver({ isWanted: () => false });
  await walk(area, way);
  assert.deepEqual(seen.read, ["lamps 1"]);
  assert.deepEqual(seen.finished, []);
});

test("a collection that is not there any more has nothing", async () => {
  const area = newArea(1, BOX, [{ collection: "gone", matched: 2 }]);
  await walk(area, wayOver().way);
  assert.deepEqual(progressOf(area), { count: 0, matched: 0, isDone: true });
});
