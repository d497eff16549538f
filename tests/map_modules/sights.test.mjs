import assert from "node:assert/strict";
import { test } from "node:test";
import { Sights } from "../../map/modules/sights.js";

function sight(id, x, seen, kept = false) {
  const box = x === null ? null : { x0: x, y0: 0, x1: x, y1: 0 };
  return { feature: { type: "Feature", id, geometry: null, properties: null }, box, seen, kept };
}

function filled(...rows) {
  const sights = new Sights();
  for (const [id, ...row] of rows) sights.set(id, sight(id, ...row));
  return sights;
}

const VIEW = { x0: 0, y0: 0, x1: 100, y1: 100 };
const ids = (sights) => sights.map(({ feature }) => feature.id);

test("what meets a box is found, the oldest first", () => {
  const sights = filled(["a", 1, 1], ["b", 500, 1], ["c", 3, 1], ["d", null, 1]);
  assert.deepEqual(ids(sights.within(VIEW)), ["a", "c"]);
  sights.set("a", sights.get("a"));
  assert.deepEqual(ids(sights.within(VIEW)), ["c", "a"]);
  assert.deepEqual([...sights].map(([id]) => id), ["b", "c", "d", "a"]);
});

test("a feature that moved is found at its new place alone", () => {
  const sights = filled(["a", 1, 1]);
  sights.set("a", sight("a", 500, 2));
  assert.deepEqual(sights.within(VIEW), []);
  assert.equal(sights.size, 1);
  assert.deepEqual(ids(sights.within({ x0: 500, y0: 0, x1: 500, y1: 0 })), ["a"]);
});

test("what was deleted is neither found nor there", () => {
  const sights = filled(["a", 1, 1], ["d", null, 1]);
  assert.equal(sights.delete("a"), true);
  assert.equal(sights.delete("a"), false);
  assert.equal(sights.delete("d"), true);
  assert.deepEqual(sights.within(VIEW), []);
  assert.equal(sights.get("a"), undefined);
});

test("what the server did not show is missing, but not what was seen later", () => {
  const sights = filled(["shown", 1, 5], ["gone", 2, 5], ["later", 3, 7], ["out", 500, 5]);
  assert.deepEqual(sights.missing(VIEW, new Set(["shown"]), 6), ["gone"]);
  assert.deepEqual(sights.missing(VIEW, new Set(["shown"]), Infinity), ["gone", "later"]);
});

test("a feature that is only in part in the box is not missing", () => {
  const sights = new Sights();
  const box = { x0: 90, y0: 0, x1: 110, y1: 0 };
  sights.set("a", { ...sight("a", 1, 1), box });
  assert.deepEqual(sights.missing(VIEW, new Set(), 2), []);
});

test("the oldest are too many, and none that is kept", () => {
  const sights = filled(["a", 1, 1], ["b", 1, 1, true], ["c", 1, 1], ["d", 1, 1]);
  assert.deepEqual(sights.surplus(4), []);
  assert.deepEqual(sights.surplus(2), ["a"]);
  assert.deepEqual(sights.surplus(1), ["a", "c"]);
});
