import assert from "node:assert/strict";
import { test } from "node:test";
import { countsAfter, extentsAfter } from "../../map/modules/counts.js";

const BOX = { x0: 0, y0: 0, x1: 100, y1: 100 };
const at = (id, ...coordinates) => ({
  type: "Feature",
  id,
  geometry: { type: "Point", coordinates },
  properties: null,
});
const line = (id, ...coordinates) => ({
  type: "Feature",
  id,
  geometry: { type: "LineString", coordinates },
  properties: null,
});
const put = (feature, collection = "lamps") => ({ collection, id: feature.id, feature });
const gone = (id) => ({ collection: "lamps", id, feature: null });
const count = (...ids) => ({
  ids: new Set(ids),
  shown: ids.length,
  matched: ids.length,
  oldest: null,
  isFiltered: false,
  problem: "",
  serial: 4,
});
const after = (changes, lamps = count("a", "b")) => {
  const counts = countsAfter(new Map([["lamps", lamps], ["trees", count("t")]]), BOX, changes, 9);
  const found = counts?.get("lamps");
  return found && [[...found.ids].sort().join(""), found.shown, found.matched];
};

test("what comes into the view, goes out of it or is deleted", () => {
  assert.deepEqual(after([put(at("c", 5, 5))]), ["abc", 3, 3]);
  assert.deepEqual(after([put(at("a", 100, 0))]), ["ab", 2, 2]);
  assert.deepEqual(after([put(at("a", 101, 0))]), ["b", 1, 1]);
  assert.deepEqual(after([gone("b"), gone("elsewhere")]), ["a", 1, 1]);
  assert.deepEqual(after([put(at("far", 900, 900))]), ["ab", 2, 2]);
  assert.deepEqual(after([put({ ...at("n"), geometry: null })]), ["ab", 2, 2]);
});

test("all collections are of the state that is reached, and the counts before stay", () => {
  const before = new Map([["lamps", count("a")], ["trees", count("t")]]);
  const counts = countsAfter(before, BOX, [put(at("c", 5, 5))], 9);
  assert.deepEqual([...counts.values()].map(({ serial }) => serial), [9, 9]);
  assert.deepEqual([...before.get("lamps").ids], ["a"]);
  assert.equal(before.get("lamps").serial, 4);
});

test("whether a line at the edge meets the view, the server alone knows", () => {
  assert.deepEqual(after([put(line("l", [5, 5], [50, 50]))]), ["abl", 3, 3]);
  assert.deepEqual(after([put(line("l", [200, 5], [300, 50]))]), ["ab", 2, 2]);
  // Its extent meets the corner of the view, and the line itself does not.
  assert.equal(after([put(line("l", [-50, 40], [40, -60]))]), undefined);
});

test("a view that is cut, of earlier, or of another collection is requested again", () => {
  assert.equal(after([put(at("c", 5, 5))], { ...count("a"), matched: 9 }), undefined);
  assert.equal(after([put(at("c", 5, 5))], { ...count("a"), problem: "no network" }), undefined);
  assert.equal(after([put(at("c", 5, 5), "benches")]), undefined);
  assert.notEqual(after([]), undefined);
});

test("extents grow with what is put in", () => {
  const lamps = { id: "lamps", title: "Lamps", extent: { x0: 0, y0: 0, x1: 9, y1: 9 } };
  const trees = { id: "trees", title: "Trees", extent: null };
  const [one, other] = extentsAfter(
    [lamps, trees],
    [put(at("a", 50, 5)), put(line("b", [1, -7], [2, 2])), gone("c"), put(at("t", 3, 4), "trees")],
  );
  assert.deepEqual(one.extent, { x0: 0, y0: -7, x1: 50, y1: 9 });
  assert.deepEqual(other.extent, { x0: 3, y0: 4, x1: 3, y1: 4 });
  assert.equal(extentsAfter([lamps], [gone("a")])[0], lamps);
});
