import assert from "node:assert/strict";
import { test } from "node:test";
import { inReference, readReference, referenceInWords } from "../../map/modules/reference.js";

const METRES = { system: "EPSG:25832", scale: 1000, shift: [565000, 5934000] };

test("east and north are the shift plus the grid's, to the millimetre", () => {
  assert.deepEqual(inReference(METRES, [12_345, 40_500]), ["565012.345", "5934040.500"]);
  assert.deepEqual(inReference(METRES, [-1, 0]), ["564999.999", "5934000.000"]);
  const most = inReference(METRES, [1_000_000_000, -1_000_000_000]);
  assert.deepEqual(most, ["1565000.000", "4934000.000"]);
  assert.equal(
    referenceInWords(METRES, [1, 2]),
    "565000.001 E, 5934000.002 N (EPSG:25832)",
  );
});

test("each millimetre has a text of its own, whatever the shift's decimals", () => {
  const reference = { ...METRES, shift: [565000.125, 5934000.5] };
  for (let at = 0; at < 3000; at += 1) {
    const [east, north] = inReference(reference, [at, -at]);
    assert.equal(Math.round((Number(east) - 565000.125) * 1000), at);
    assert.equal(Math.round((5934000.5 - Number(north)) * 1000), at);
  }
});

test("other units have the digits that a millimetre needs", () => {
  assert.deepEqual(inReference({ ...METRES, scale: 1, shift: [7, -3] }, [5, 3]), ["12", "0"]);
  const feet = { ...METRES, scale: 304.8, shift: [0, 100] };
  assert.deepEqual(inReference(feet, [3048, -1]), ["10.000", "99.997"]);
});

test("another form is refused", () => {
  assert.equal(readReference({}), null);
  assert.deepEqual(readReference({ grid: METRES }), METRES);
  const wrong = [
    null,
    {},
    { ...METRES, scale: 0 },
    { ...METRES, scale: "1000" },
    { ...METRES, shift: [1] },
    { ...METRES, shift: [1, "2"] },
    { ...METRES, shift: [1, NaN] },
    { ...METRES, system: "" },
  ];
  for (const grid of wrong) assert.throws(() => readReference({ grid }), /a scale above 0/);
});
