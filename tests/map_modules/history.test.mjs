import assert from "node:assert/strict";
import { test } from "node:test";
import { emptyHistory, takenAgain, takenBack, withStep } from "../../map/modules/history.js";

const of = (...states) =>
  states.slice(1).reduce((history, state, at) => withStep(history, states[at], state),
    emptyHistory());

test("steps are taken back the last first, and again the first first", () => {
  const first = takenBack(of("a", "b", "c"));
  assert.deepEqual(first.step, { before: "b", after: "c" });
  const second = takenBack(first.history);
  assert.deepEqual(second.step, { before: "a", after: "b" });
  assert.equal(takenBack(second.history).step, null);
  const again = takenAgain(second.history);
  assert.deepEqual(again.step, second.step);
  assert.deepEqual(takenAgain(again.history).history, of("a", "b", "c"));
  assert.equal(takenAgain(of("a", "b")).step, null);
});

test("after a new step, nothing is taken again", () => {
  const { history } = takenBack(of("a", "b"));
  assert.equal(takenAgain(withStep(history, "a", "x")).step, null);
});

test("a hundred steps are kept, and a history is not changed in place", () => {
  const long = of(...Array(200).keys());
  assert.equal(long.done.length, 100);
  const before = structuredClone(long);
  takenBack(long);
  withStep(long, 1, 2);
  assert.deepEqual(long, before);
});
