import assert from "node:assert/strict";
import { test } from "node:test";
import { bothChanged, canMerge, merged, mergedBatch } from "../../map/modules/merging.js";
import { nextToSend } from "../../map/modules/queue.js";

const of = (properties, at = [0, 0], id = "L1") => ({
  type: "Feature",
  id,
  geometry: { type: "Point", coordinates: at },
  properties,
});
const edit = (base, feature) => ({
  op: "replace",
  collection: "lamps",
  id: base.id,
  feature,
  base,
});
const ask = () => assert.fail("nobody is to be asked");

test("what only one side changed is taken from it", () => {
  const base = of({ a: 1, b: 2, gone: 3, c: 4 });
  const mine = of({ a: 9, b: 2, gone: 3, c: 4, mine: 1 }, [5, 5]);
  const theirs = of({ a: 1, b: 8, c: 4, theirs: 2 });
  const kept = merged(edit(base, mine), theirs, ask);
  assert.deepEqual(kept.feature, of({ a: 9, b: 8, c: 4, mine: 1, theirs: 2 }, [5, 5]));
  assert.deepEqual(kept.base, theirs);
  assert.equal(kept.op, "replace");
});

test("what I took out stays out, and what they took out too", () => {
  const kept = merged(edit(of({ a: 1, b: 2, c: 3 }), of({ b: 2, c: 3 })), of({ a: 1, c: 3 }), ask);
  assert.deepEqual(kept.feature.properties, { c: 3 });
});

test("what both changed is asked, also if one took it out; the same change is none", () => {
  const base = of({ a: 1, b: 1, c: 1 });
  const mine = of({ a: 2, b: 2 }, [1, 1]);
  const theirs = of({ a: 3, b: 2, c: 5 }, [2, 2]);
  const whats = bothChanged(edit(base, mine), theirs);
  assert.deepEqual(whats, [
    { what: "geometry", isGeometry: true },
    { what: "a", isGeometry: false },
    { what: "c", isGeometry: false },
  ]);
  const sides = { geometry: "mine", a: "theirs", c: "mine" };
  const kept = merged(edit(base, mine), theirs, (what) => sides[what]);
  assert.deepEqual(kept.feature, of({ a: 3, b: 2 }, [1, 1]));
});

test("a property called geometry is a property", () => {
  const base = of({ geometry: 1 });
  const both = bothChanged(edit(base, of({ geometry: 2 })), of({ geometry: 3 }));
  assert.deepEqual(both, [{ what: "geometry", isGeometry: false }]);
  const kept = merged(edit(base, of({ geometry: 2 })), of({ geometry: 1 }, [4, 4]), ask);
  assert.deepEqual(kept.feature, of({ geometry: 2 }, [4, 4]));
});

test("a feature without properties is one with none", () => {
  const kept = merged(edit(of(null), of({ a: 1 })), of({ b: 2 }), ask);
  assert.deepEqual(kept.feature.properties, { a: 1, b: 2 });
  const moved = merged(edit(of(null), of(null, [1, 1])), of(null), ask);
  assert.equal(moved.feature.properties, null);
});

test("nothing is left of an edit that another has made", () => {
  assert.equal(merged(edit(of({ a: 1 }), of({ a: 2 })), of({ a: 2, b: 1 }), ask), null);
});

test("only two changes of a feature that is there are merged", () => {
  const base = of({ a: 1 });
  assert.equal(canMerge(edit(base, of({ a: 2 })), base), true);
  assert.equal(canMerge(edit(base, of({ a: 2 })), null), false);
  assert.equal(canMerge({ ...edit(base, null), op: "delete" }, base), false);
});

test("of a batch, only what both changed is left to ask", () => {
  const base = of({ a: 1 });
  const edits = [
    edit(base, of({ a: 2 })),
    edit(of({ a: 1 }, [0, 0], "L2"), of({ a: 1, b: 1 }, [0, 0], "L2")),
    edit(of({ a: 1 }, [0, 0], "L3"), of({ a: 7 }, [0, 0], "L3")),
  ];
  const found = [
    { index: 0, theirs: of({ a: 2 }) },
    { index: 1, theirs: of({ a: 5 }, [0, 0], "L2") },
    { index: 2, theirs: of({ a: 6 }, [0, 0], "L3") },
  ];
  const left = mergedBatch(edits, found);
  assert.deepEqual(left.edits.map(({ id }) => id), ["L2", "L3"]);
  assert.deepEqual(left.edits[0].feature.properties, { a: 5, b: 1 });
  assert.deepEqual(left.differences, [{ index: 1, theirs: found[2].theirs }]);
});

const batch = (number, state, ...ids) => ({
  number,
  state,
  held: false,
  edits: ids.map((id) => ({ collection: "lamps", id })),
});
const next = (...queue) => nextToSend(queue)?.number ?? null;

test("a conflict holds up what touches its features, and what builds upon that", () => {
  assert.equal(next(batch(1, "waiting", "a")), 1);
  assert.equal(next(batch(1, "differs", "a"), batch(2, "waiting", "b")), 2);
  const same = [batch(1, "differs", "a"), batch(2, "waiting", "a"), batch(3, "waiting", "c")];
  assert.equal(next(...same), 3);
  const upon = [batch(1, "differs", "a"), batch(2, "waiting", "a", "b"), batch(3, "waiting", "b")];
  assert.equal(next(...upon), null);
});

test("a refused batch, and one that waits for the user, hold up all", () => {
  assert.equal(next(batch(1, "refused", "a"), batch(2, "waiting", "b")), null);
  assert.equal(next({ ...batch(1, "waiting", "a"), held: true }, batch(2, "waiting", "b")), null);
  assert.equal(next(), null);
});
