import assert from "node:assert/strict";
import { test } from "node:test";
import { condition, newestOf, oldestOf, serialIn } from "../../map/modules/serials.js";

/** The serial that an answer with this tag has. */
const of = (etag = null) => serialIn({ get: (name) => (name === "etag" ? etag : null) });

test("the serial of a state is its tag, also if nginx compressed the answer", () => {
  assert.equal(of('"0"'), 0);
  assert.equal(of('"1204"'), 1204);
  assert.equal(of('W/"1204"'), 1204);
});

test("what another server adds is none", () => {
  for (const tag of [undefined, '"5f3a"', "12", '""', '"-1"', '"12", "13"', '"9999999999999999"']) {
    assert.equal(of(tag), null, tag);
  }
});

test("a condition is about a state that is known", () => {
  assert.deepEqual(condition("If-Match", 12), { "If-Match": '"12"' });
  assert.deepEqual(condition("If-None-Match", 0), { "If-None-Match": '"0"' });
  assert.deepEqual(condition("If-Match", null), {});
  assert.deepEqual(condition("If-Match", undefined), {});
});

test("the oldest of several states", () => {
  assert.equal(oldestOf([7, 5, 9]), 5);
  assert.equal(oldestOf([0]), 0);
  assert.equal(oldestOf([7, null]), null);
  assert.equal(oldestOf([]), null);
});

test("the newest of those that are known", () => {
  assert.equal(newestOf([7, null, 9, 5]), 9);
  assert.equal(newestOf([null, 0]), 0);
  assert.equal(newestOf([null]), null);
});
