import assert from "node:assert/strict";
import { test } from "node:test";
import { nearestVertex } from "../../map/modules/vertices.js";

const point = (...coordinates) => ({ type: "Point", coordinates });

test("the nearest vertex within reach, of all parts of all geometries", () => {
  const ring = [[0, 0], [100, 0], [100, 100], [0, 0]];
  const all = [
    { type: "Polygon", coordinates: [ring] },
    { type: "GeometryCollection", geometries: [point(50, 50, 7), point(52, 50)] },
  ];
  assert.deepEqual(nearestVertex(all, [98, 3], 5), [100, 0]);
  assert.deepEqual(nearestVertex(all, [50, 48], 5), [50, 50]);
  assert.equal(nearestVertex(all, [60, 60], 5), null);
  assert.equal(nearestVertex([], [0, 0], 5), null);
});

test("reach is a distance, and its end belongs to it", () => {
  assert.deepEqual(nearestVertex([point(3, 4)], [0, 0], 5), [3, 4]);
  assert.equal(nearestVertex([point(4, 4)], [0, 0], 5), null);
});

test("of vertices that are as near, the first", () => {
  assert.deepEqual(nearestVertex([point(1, 0), point(-1, 0)], [0, 0], 5), [1, 0]);
  assert.deepEqual(nearestVertex([point(0, 0)], [0, 0], 0), [0, 0]);
});
