import assert from "node:assert/strict";
import { test } from "node:test";
import { officeOf } from "../../map/modules/office.js";

test("nothing is said", () => {
  const office = officeOf({});
  assert.equal(office.place, null);
  assert.equal(office.forms.size, 0);
  assert.deepEqual(office.problems, []);
});

test("a part of another form is left out, and named; the others count", () => {
  const office = officeOf({
    place: { error: 1 },
    collections: {
      lamps: { fields: [{ name: "street" }] },
      trees: { fields: [{ name: "species", type: "species" }] },
      walls: null,
    },
  });
  assert.equal(office.place, null);
  assert.deepEqual([...office.forms.keys()], ["lamps", "walls"]);
  assert.equal(office.problems.length, 2);
  assert.match(office.problems[0], /^place: /);
  assert.match(office.problems[1], /^trees: the field “species”/);
});

test("what is no object is no description", () => {
  for (const json of [null, [], "x", { collections: "x" }, { collections: null }]) {
    assert.equal(officeOf(json).forms.size, 0);
  }
});
