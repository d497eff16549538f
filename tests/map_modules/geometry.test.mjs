import assert from "node:assert/strict";
import { test } from "node:test";
import { boxOf } from "../../map/modules/geometry.js";

const box = (x0, y0, x1, y1) => ({ x0, y0, x1, y1 });

test("the extent of all positions of each kind of geometry", () => {
  const line = [[3, -1, 99], [1, 5, -99]];
  const ring = [[0, 0], [9, 0], [9, 7], [0, 0]];
  const cases = [
    [{ type: "Point", coordinates: [2, -3, 50] }, box(2, -3, 2, -3)],
    [{ type: "MultiPoint", coordinates: line }, box(1, -1, 3, 5)],
    [{ type: "LineString", coordinates: line }, box(1, -1, 3, 5)],
    [{ type: "MultiLineString", coordinates: [line, [[-8, 0]]] }, box(-8, -1, 3, 5)],
    [{ type: "Polygon", coordinates: [ring] }, box(0, 0, 9, 7)],
    [{ type: "MultiPolygon", coordinates: [[ring], [[[20, 20]]]] }, box(0, 0, 20, 20)],
  ];
  for (const [geometry, extent] of cases) assert.deepEqual(boxOf(geometry), extent);
  const geometries = cases.map(([geometry]) => geometry);
  assert.deepEqual(boxOf({ type: "GeometryCollection", geometries }), box(-8, -3, 20, 20));
});

test("what has no position has no extent", () => {
  assert.equal(boxOf(null), null);
  assert.equal(boxOf({ type: "MultiPoint", coordinates: [] }), null);
  assert.equal(boxOf({ type: "GeometryCollection", geometries: [] }), null);
});
