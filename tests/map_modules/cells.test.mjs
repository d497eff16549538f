import assert from "node:assert/strict";
import { test } from "node:test";
import { Cells } from "../../map/modules/cells.js";
import { overlaps } from "../../map/modules/geometry.js";

const MOST = 1_000_000_000;

/** Numbers below a bound that look random, and are the same at each run. */
function numbers() {
  let last = 7;
  return (below) => (last = (last * 16807) % 2147483647) % below;
}

function someThings(count) {
  const next = numbers();
  const sides = [0, 1, 500, 16_384, 16_385, 90_000, 3_000_000, 2 * MOST];
  return Array.from({ length: count }, (_, number) => {
    const [x0, y0] = [next(400_000) - 200_000, next(400_000) - 200_000];
    const [width, height] = [sides[next(sides.length)], sides[next(sides.length)]];
    const [x1, y1] = [Math.min(MOST, x0 + width), Math.min(MOST, y0 + height)];
    return { number, box: { x0, y0, x1, y1 } };
  });
}

const sorted = (things) => things.map(({ number }) => number).sort((one, other) => one - other);

test("what meets a box is found, whatever its size, and nothing else", () => {
  const [cells, things] = [new Cells(), someThings(600)];
  for (const thing of things) cells.add(thing);
  const next = numbers();
  for (let round = 0; round < 200; round += 1) {
    const [x0, y0] = [next(500_000) - 250_000, next(500_000) - 250_000];
    const box = { x0, y0, x1: x0 + next(200_000), y1: y0 + next(200_000) };
    const wanted = things.filter((thing) => overlaps(thing.box, box));
    assert.deepEqual(sorted(cells.within(box)), sorted(wanted));
  }
});

test("boxes at the bounds of the grid, and one of all", () => {
  const cells = new Cells();
  const corners = [[-MOST, -MOST], [MOST, -MOST], [MOST, MOST], [-MOST, MOST]];
  const things = corners.map(([x, y], number) => ({ number, box: { x0: x, y0: y, x1: x, y1: y } }));
  for (const thing of things) cells.add(thing);
  for (const thing of things) assert.deepEqual(cells.within(thing.box), [thing]);
  const all = { x0: -2 * MOST, y0: -2 * MOST, x1: 2 * MOST, y1: 2 * MOST };
  assert.deepEqual(sorted(cells.within(all)), [0, 1, 2, 3]);
});

test("what was removed is not found, and what is not there can be removed", () => {
  const [cells, things] = [new Cells(), someThings(50)];
  for (const thing of things) cells.add(thing);
  for (const thing of things.slice(0, 30)) cells.remove(thing);
  for (const thing of things.slice(0, 30)) cells.remove(thing);
  const all = { x0: -MOST, y0: -MOST, x1: MOST, y1: MOST };
  assert.deepEqual(sorted(cells.within(all)), sorted(things.slice(30)));
});
