import assert from "node:assert/strict";
import { test } from "node:test";
import {
  areaOf,
  lengthOf,
  measured,
  measuresInWords,
  sketchMeasured,
} from "../../map/modules/measure.js";

const ring = (...corners) => [...corners, corners[0]];
const square = (x, y, side) => [[x, y], [x + side, y], [x + side, y + side], [x, y + side]];

test("the length along positions", () => {
  assert.equal(lengthOf([]), 0);
  assert.equal(lengthOf([[5, 5]]), 0);
  assert.equal(lengthOf([[0, 0], [3000, 4000], [3000, 5000]]), 6000);
});

test("the area of a ring, closed or not, either way, also far from 0,0", () => {
  const corners = square(999_999_000, -999_999_000, 1);
  assert.equal(areaOf(corners), 1);
  assert.equal(areaOf(ring(...corners)), 1);
  assert.equal(areaOf([...corners].reverse()), 1);
  assert.equal(areaOf([]), 0);
  assert.equal(areaOf([[1, 1], [2, 2]]), 0);
});

test("holes are taken off, parts are added up", () => {
  const polygon = [ring(...square(0, 0, 10_000)), ring(...square(1000, 1000, 2000))];
  const one = measured({ type: "Polygon", coordinates: polygon });
  assert.deepEqual(one, { length: 48_000, area: 96e6 });
  const both = [polygon, [ring(...square(50_000, 0, 1000))]];
  const two = measured({ type: "MultiPolygon", coordinates: both });
  assert.deepEqual(two, { length: 52_000, area: 97e6 });
  const lines = [[[0, 0], [0, 1000]], [[0, 0], [2000, 0]]];
  assert.deepEqual(measured({ type: "MultiLineString", coordinates: lines }), {
    length: 3000,
    area: 0,
  });
});

test("a ring on its way is closed once it has an area", () => {
  const corners = square(0, 0, 1000);
  assert.deepEqual(sketchMeasured("line", corners), { length: 3000, area: 0 });
  assert.deepEqual(sketchMeasured("ring", corners), { length: 4000, area: 1e6 });
  assert.deepEqual(sketchMeasured("ring", corners.slice(0, 2)), { length: 1000, area: 0 });
});

test("what is said of it", () => {
  assert.equal(measuresInWords(measured(null)), "");
  assert.equal(measuresInWords(measured({ type: "Point", coordinates: [1, 2] })), "");
  assert.equal(measuresInWords({ length: 1_234_565, area: 0 }), "1,234.57 m long");
  assert.equal(measuresInWords({ length: 48_000, area: 96e6 }), "96.00 m², 48.00 m around");
});
