import assert from "node:assert/strict";
import { test } from "node:test";
import { State, closedForm } from "../../map/modules/state.js";

test("a change is told once, with what was before; none is not told", () => {
  const state = new State();
  const told = [];
  state.on("view", (now, before) => told.push([before.zoom, now.zoom]));
  state.on("choice", () => assert.fail("nothing was chosen"));
  state.set("view", { zoom: 3 });
  state.set("view", { zoom: 3, x: 0 });
  state.set("view", { zoom: 4, x: 1 });
  assert.deepEqual(told, [[0, 3], [3, 4]]);
  assert.deepEqual({ x: state.view.x, zoom: state.view.zoom }, { x: 1, zoom: 4 });
});

test("a part is not changed in place, nor by who reads it", () => {
  const state = new State();
  const before = state.form;
  state.set("form", { isOpen: true });
  assert.equal(before.isOpen, false);
  assert.throws(() => (state.form.isOpen = false), TypeError);
});

test("what a listener changes is told after what it was told of", () => {
  const state = new State();
  const order = [];
  state.on("choice", ({ name }) => {
    order.push(`first ${name?.id}`);
    if (name) state.set("form", { isOpen: true });
  });
  state.on("form", () => order.push("form"));
  state.on("choice", ({ name }) => order.push(`second ${name?.id}`));
  state.set("choice", { name: { collection: "lamps", id: "L1" } });
  assert.deepEqual(order, ["first L1", "second L1", "form"]);
});

test("after a listener that throws, the others are told with the next change", () => {
  const state = new State();
  const told = [];
  let isFirst = true;
  state.on("view", () => {
    if (!isFirst) return;
    isFirst = false;
    throw new Error("out of order");
  });
  state.on("view", ({ zoom }) => told.push(zoom));
  assert.throws(() => state.set("view", { zoom: 1 }), /out of order/);
  state.set("view", { zoom: 2 });
  assert.deepEqual(told, [1, 2]);
});

test("a form is begun once something would be lost", () => {
  const state = new State();
  const sketch = { kind: "line", positions: [], accuracies: [] };
  const draft = { geometry: null, accuracy: null, sketch };
  const begun = (changes) => {
    state.set("form", { ...closedForm(), draft, ...changes });
    return state.isFormBegun;
  };
  assert.equal(begun({ isOpen: true }), false);
  assert.equal(begun({ isOpen: true, isTyped: true }), true);
  const drawn = { ...draft, sketch: { ...sketch, positions: [[1, 2]] } };
  assert.equal(begun({ isOpen: true, draft: drawn }), true);
  const changed = { ...draft, geometry: { type: "Point", coordinates: [1, 2] }, sketch: null };
  assert.equal(begun({ isOpen: true, draft: changed }), true);
  // A feature without a geometry that is changed: all of the form is an edit under way.
  assert.equal(begun({ isOpen: true, draft: { ...draft, sketch: null } }), true);
  assert.equal(begun({ isTyped: true }), false);
});
