import assert from "node:assert/strict";
import { test } from "node:test";
import { grown, meet, outlineOf, squareAt, squaresIn } from "../../map/modules/tiles.js";

const rectangle = (left, top, right, bottom) => ({ left, top, right, bottom });

test("the squares that have a part of a rectangle, row by row", () => {
  const places = (...edges) => squaresIn(rectangle(...edges), 10).map((it) => [it.column, it.row]);
  assert.deepEqual(places(0, 0, 10, 10), [[0, 0]]);
  assert.deepEqual(places(0, 0, 11, 10), [[0, 0], [1, 0]]);
  assert.deepEqual(places(-1, -1, 1, 1), [[-1, -1], [0, -1], [-1, 0], [0, 0]]);
  assert.deepEqual(places(9.5, 3, 10.5, 4), [[0, 0], [1, 0]]);
});

test("each square that is named meets the rectangle, and no other one does", () => {
  const view = rectangle(-37, 12, 64, 55);
  const named = squaresIn(view, 16);
  for (let column = -6; column < 6; column += 1) {
    for (let row = -6; row < 6; row += 1) {
      const isNamed = named.some((it) => it.column === column && it.row === row);
      assert.equal(meet(squareAt({ column, row }, 16), view), isNamed, `${column} ${row}`);
    }
  }
});

test("rectangles that only touch do not meet", () => {
  assert.equal(meet(rectangle(0, 0, 10, 10), rectangle(10, 0, 20, 10)), false);
  assert.equal(meet(rectangle(0, 0, 10, 10), rectangle(0, 10, 10, 20)), false);
  assert.equal(meet(rectangle(0, 0, 10, 10), rectangle(9, 9, 20, 20)), true);
});

test("a rectangle grows at each edge, and an outline has all", () => {
  assert.deepEqual(grown(rectangle(0, 0, 100, 50), 0.1), rectangle(-10, -5, 110, 55));
  const outline = outlineOf([rectangle(0, 0, 5, 5), rectangle(-3, 2, 1, 9)]);
  assert.deepEqual(outline, rectangle(-3, 0, 5, 9));
});
