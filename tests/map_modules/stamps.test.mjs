import assert from "node:assert/strict";
import { after, before, test } from "node:test";
import { Stamps } from "../../map/modules/stamps.js";

/** What was drawn on canvases, as the names of the calls. */
const calls = [];

/** A canvas that notes what is called of its context. */
function canvas() {
  const noted = (_, name) => (...given) => calls.push([name, ...given]);
  const context = new Proxy({}, { get: noted, set: () => true });
  return { width: 0, height: 0, getContext: () => context };
}

const style = (radius) => ({
  color: "#fff", weight: 2, opacity: 1, dash: [], fillColor: "#087", fillOpacity: 1, radius,
  shape: "circle",
});

before(() => (globalThis.document = { createElement: canvas }));
after(() => delete globalThis.document);

test("a symbol is drawn once for its style", () => {
  const [stamps, one, other] = [new Stamps(), style(5), style(6)];
  const stamp = stamps.of(one);
  const { length } = calls;
  assert.equal(stamps.of(one), stamp);
  assert.equal(calls.length, length);
  assert.notEqual(stamps.of(other), stamp);
});

test("its canvas has room for all of it, at the pixels of the screen", () => {
  const stamps = new Stamps();
  stamps.use(2);
  const { canvas: made, reach } = stamps.of(style(5));
  assert.ok(reach >= 5 * 1.3 + 1);
  assert.equal(made.width, 2 * 2 * reach);
  assert.ok(calls.some(([name, x, y]) => name === "arc" && x === reach && y === reach));
});

test("on another screen it is drawn again", () => {
  const [stamps, one] = [new Stamps(), style(5)];
  const stamp = stamps.of(one);
  stamps.use(1);
  assert.equal(stamps.of(one), stamp);
  stamps.use(2);
  assert.notEqual(stamps.of(one), stamp);
});
