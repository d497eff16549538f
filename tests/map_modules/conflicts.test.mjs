import assert from "node:assert/strict";
import { test } from "node:test";
import { Overtaken, compared } from "../../map/modules/conflicts.js";

const of = (id, properties) => ({ type: "Feature", id, geometry: null, properties });
const edit = (id, op = "replace") => ({
  op,
  collection: "lamps",
  id,
  base: op === "insert" ? null : of(id, { a: 1 }),
  feature: op === "delete" ? null : of(id, { a: 2 }),
});

/**
 * A server whose state moves on: `states` has, from a serial on, the features by their ids. Each
 * read goes to the state that `next` names.
 */
function server(states, next) {
  const reads = [];
  const read = async (_, id) => {
    const serial = next(id, reads.length);
    reads.push([id, serial]);
    const feature = states[serial][id] ?? null;
    return { feature, serial: feature && serial };
  };
  return { read, reads };
}

/** A server that does not say what was changed. */
const unsaid = async () => null;
const SAME = { a: of("a", { a: 1 }), b: of("b", { a: 1 }) };

test("the comparison is of one state, whose serial it has", async () => {
  const { read, reads } = server({ 7: SAME }, () => 7);
  assert.deepEqual(await compared([edit("a"), edit("b", "delete")], read, unsaid), {
    differences: [],
    serial: 7,
  });
  assert.equal(reads.length, 2);
});

test("what was read in an older state is read again", async () => {
  const changed = { a: of("a", { a: 1, b: 5 }), b: of("b", { a: 1 }) };
  const { read, reads } = server({ 7: SAME, 8: changed }, (id, at) => (at === 0 ? 7 : 8));
  const { differences, serial } = await compared([edit("a"), edit("b")], read, unsaid);
  assert.equal(serial, 8);
  assert.deepEqual(differences, [{ index: 0, theirs: changed.a }]);
  assert.deepEqual(reads, [["a", 7], ["b", 8], ["a", 8]]);
});

test("a state that never rests is none to compare with", async () => {
  const states = Object.fromEntries(Array.from({ length: 99 }, (_, serial) => [serial, SAME]));
  const { read } = server(states, (_, at) => at);
  await assert.rejects(compared([edit("a"), edit("b")], read, unsaid), Overtaken);
  // A single feature is always of one state.
  assert.equal((await compared([edit("a")], read, unsaid)).serial !== null, true);
});

test("a feature that is gone is a difference, although an error has no tag", async () => {
  const { read, reads } = server({ 3: { a: SAME.a } }, () => 3);
  const { differences, serial } = await compared([edit("a"), edit("gone")], read, unsaid);
  assert.deepEqual(differences, [{ index: 1, theirs: null }]);
  assert.deepEqual([serial, reads.length], [3, 2]);
});

test("a server without tags is compared once, and gives no serial", async () => {
  let count = 0;
  const read = async (_, id) => {
    count += 1;
    return { feature: SAME[id], serial: null };
  };
  assert.deepEqual(await compared([edit("a"), edit("b")], read, unsaid), {
    differences: [],
    serial: null,
  });
  assert.equal(count, 2);
});

test("what is only added is compared with nothing, and has no condition", async () => {
  const read = () => assert.fail("nothing is to be read");
  const nothing = { differences: [], serial: null };
  assert.deepEqual(await compared([edit("n", "insert")], read, unsaid), nothing);
});

test("what was changed since is taken in at once, if the server says it", async () => {
  const states = Array.from({ length: 99 }, () => SAME);
  const { read, reads } = server(states, (_, at) => at + 10);
  const changed = of("b", { a: 1, state: "worn" });
  const since = async (oldest) => {
    assert.equal(oldest, 10);
    const changes = [{ collection: "lamps", id: "b", feature: changed }];
    return { known: { serial: 40, key: "k40" }, changes, isOpened: false };
  };
  const edits = [edit("a"), edit("b"), edit("c", "insert"), edit("a")];
  const { differences, serial } = await compared(edits, read, since);
  assert.equal(serial, 40);
  assert.deepEqual(differences, [{ index: 1, theirs: changed }]);
  assert.equal(reads.length, 3);
});

test("what a server that is behind says was changed is not taken in", async () => {
  const states = Object.fromEntries([7, 8, 9].map((serial) => [serial, SAME]));
  const { read } = server(states, (_, at) => Math.min(9, 7 + at));
  const since = async () => ({ known: { serial: 8, key: "" }, changes: [], isOpened: false });
  const { serial } = await compared([edit("a"), edit("b"), edit("a")], read, since);
  assert.equal(serial, 9);
});
