import assert from "node:assert/strict";
import { test } from "node:test";
import { cellsOf, gridOf, shade } from "../../map/modules/density.js";

test("a view has about two dozen cells, which are about squares", () => {
  for (const [width, height] of [[1280, 800], [390, 400], [400, 390], [1, 1000], [1000, 1]]) {
    const { columns, rows } = gridOf(width, height);
    assert.ok(columns >= 1 && rows >= 1, `${width} by ${height}`);
    assert.ok(columns * rows <= 200, `${width} by ${height}`);
  }
  assert.deepEqual(gridOf(600, 400), { columns: 6, rows: 4 });
});

test("each position of the view is in one cell", () => {
  for (const box of [{ x0: -7, y0: -3, x1: 12, y1: 8 }, { x0: 0, y0: 0, x1: 5, y1: 5 }]) {
    const cells = cellsOf(box, 3, 2);
    assert.equal(cells.length, 6);
    for (let x = box.x0; x <= box.x1; x += 1) {
      for (let y = box.y0; y <= box.y1; y += 1) {
        const isIn = ({ x0, y0, x1, y1 }) => x0 <= x && x <= x1 && y0 <= y && y <= y1;
        assert.equal(cells.filter(isIn).length, 1, `${x} ${y}`);
      }
    }
  }
});

test("more is darker, and nothing is not drawn", () => {
  assert.equal(shade(0, 10), 0);
  assert.ok(shade(1, 10) < shade(5, 10) && shade(5, 10) < shade(10, 10));
  assert.ok(shade(10, 10) <= 0.5 + 1e-9);
});
