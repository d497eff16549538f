import assert from "node:assert/strict";
import { test } from "node:test";
import { Idle } from "../../map/modules/idle.js";

/** A browser that has nothing to do when it is told so, and its clock. */
function browser() {
  const state = { now: 0, acts: [] };
  const idle = new Idle((act) => state.acts.push(act), () => state.now);
  const rest = async () => {
    state.acts.shift()?.();
    await new Promise((resolve) => setImmediate(resolve));
  };
  return { state, idle, rest };
}

test("pieces are done one by one, in their order", async () => {
  const { idle, rest } = browser();
  const done = [];
  for (const name of ["a", "b", "c"]) idle.add(async () => void done.push(name));
  assert.deepEqual(done, []);
  await rest();
  assert.deepEqual(done, ["a"]);
  await rest();
  await rest();
  await rest();
  assert.deepEqual(done, ["a", "b", "c"]);
});

test("nothing is done while a view is on its way", async () => {
  const { idle, rest } = browser();
  const done = [];
  idle.hold();
  idle.add(async () => void done.push("a"));
  await rest();
  assert.deepEqual(done, []);
  idle.release();
  await rest();
  assert.deepEqual(done, ["a"]);
});

test("a view that does not come holds up nothing for ever", async () => {
  const { state, idle, rest } = browser();
  const done = [];
  idle.hold();
  idle.add(async () => void done.push("a"));
  state.now = 2000;
  idle.hold();
  await rest();
  assert.deepEqual(done, []);
  state.now = 3000;
  await rest();
  assert.deepEqual(done, ["a"]);
});

test("a piece that fails does not stop the next one", async (context) => {
  const { idle, rest } = browser();
  const said = context.mock.method(console, "error", () => {});
  const done = [];
  idle.add(async () => {
    throw new Error("no room");
  });
  idle.add(async () => void done.push("b"));
  await rest();
  await rest();
  assert.deepEqual(done, ["b"]);
  assert.equal(said.mock.callCount(), 1);
});
