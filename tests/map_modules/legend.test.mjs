import assert from "node:assert/strict";
import { test } from "node:test";
import { labelOf, readLegend, symbolOf } from "../../map/modules/legend.js";

const of = (properties) => ({ type: "Feature", id: "L1", geometry: null, properties });
const rows = [
  { value: "broken", label: "Broken", colour: "#C21E14", shape: "square" },
  { value: true, colour: 3 },
  { value: 35 },
];
const legend = readLegend({ label: "plate", symbols: { property: "state", values: rows } });

test("a symbol is chosen by the value of the property, and its kind", () => {
  assert.equal(symbolOf(legend, of({ state: "broken" })).shape, "square");
  assert.equal(symbolOf(legend, of({ state: true })).colour, "collection-3");
  assert.equal(symbolOf(legend, of({ state: 35 })).colour, null);
  assert.equal(symbolOf(legend, of({ state: 35 })).label, "35");
  for (const state of ["35", "true", null, undefined]) {
    assert.equal(symbolOf(legend, of({ state })), null);
  }
  assert.equal(symbolOf(legend, of(null)), null);
  assert.equal(symbolOf(undefined, of({ state: "broken" })), null);
});

test("a label is short, and only an own property", () => {
  assert.equal(labelOf(legend, of({ plate: "A 7" })), "A 7");
  assert.equal(labelOf(legend, of({ plate: 7 })), "7");
  assert.equal(labelOf(legend, of({ plate: null })), "");
  assert.equal(labelOf(legend, of({})), "");
  assert.equal(labelOf(legend, of({ plate: "x".repeat(100) })).length, 40);
  assert.equal(labelOf(readLegend({ label: "toString" }), of({})), "");
});

test("nothing described is nothing drawn otherwise", () => {
  const none = readLegend({});
  assert.equal(symbolOf(none, of({ "": "x" })), null);
  assert.equal(labelOf(none, of({ "": "x" })), "");
  assert.deepEqual(readLegend(null).rows, []);
});

test("what has another form is refused", () => {
  const symbols = (row) => ({ symbols: { property: "state", values: [row] } });
  const bad = [
    { label: 1 },
    { symbols: {} },
    { symbols: { property: "state" } },
    symbols(null),
    symbols({ value: null }),
    symbols({ value: {} }),
    symbols({ value: 1, colour: "red" }),
    symbols({ value: 1, colour: "#12345" }),
    symbols({ value: 1, colour: "#123456; x" }),
    symbols({ value: 1, colour: 8 }),
    symbols({ value: 1, shape: "star" }),
  ];
  for (const described of bad) {
    assert.throws(() => readLegend(described), JSON.stringify(described));
  }
});
