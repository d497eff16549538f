import assert from "node:assert/strict";
import { test } from "node:test";
import { searched } from "../../map/modules/search.js";

const of = (id, properties) => ({
  collection: "lamps",
  feature: { type: "Feature", id, geometry: null, properties },
});
const all = [
  of("L1", { street: "Straße am Häfen", watts: 35 }),
  of("hafen-2", { street: "Ropewalk" }),
  of("L3", null),
];
const ids = (text, most = 9) => searched(all, text, most).map(({ id }) => id);

test("ids come first, and marks and case are no difference", () => {
  assert.deepEqual(ids("HAFEN"), ["hafen-2", "L1"]);
  assert.deepEqual(ids(" l"), ["L1", "L3", "hafen-2"]);
});

test("it says which property was found", () => {
  assert.equal(searched(all, "35", 9)[0].why, "watts: 35");
  assert.equal(searched(all, "L3", 9)[0].why, "");
});

test("nothing wanted, nothing found; and at most so many", () => {
  assert.deepEqual(ids("  "), []);
  assert.deepEqual(ids("nowhere"), []);
  assert.equal(ids("l", 1).length, 1);
});
