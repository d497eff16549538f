import assert from "node:assert/strict";
import { test } from "node:test";
import { Resting } from "../../map/modules/resting.js";

function parts() {
  const [dataset, gathered] = [{}, []];
  const map = {
    getContainer: () => ({ dataset }),
    getCenter: () => ({ lat: 2, lng: 1 }),
    getZoom: () => 3,
  };
  const layers = { gather: (isGathering) => gathered.push(isGathering) };
  return { dataset, gathered, resting: new Resting(map, layers) };
}

test("a view rests once its features are there", () => {
  const { dataset, gathered, resting } = parts();
  const rests = resting.asks();
  assert.deepEqual({ ...dataset }, { x: 1, y: 2, zoom: 3, state: "asks" });
  rests();
  assert.equal(dataset.state, "rests");
  assert.deepEqual(gathered, [true, false]);
});

test("a view that was requested again does not rest by the earlier answer", () => {
  const { dataset, gathered, resting } = parts();
  const earlier = resting.asks();
  const later = resting.asks();
  earlier();
  assert.equal(dataset.state, "asks");
  later();
  assert.equal(dataset.state, "rests");
  assert.deepEqual(gathered, [true, true, false]);
});
