import assert from "node:assert/strict";
import { after, before, test } from "node:test";
import { Styling, sizesAt } from "../../map/modules/styling.js";

const look = { colour: "#c21e14", shape: "square" };

before(() => {
  const style = { getPropertyValue: (name) => ` ${name} ` };
  Object.assign(globalThis, { document: {}, getComputedStyle: () => style });
});
after(() => {
  delete globalThis.document;
  delete globalThis.getComputedStyle;
});

test("sizes grow with the zoom", () => {
  const zooms = [-1, 0, 1, 2, 2.5, 4];
  const sizes = zooms.map(sizesAt);
  assert.deepEqual(sizes.map(({ radius }) => radius), [2.5, 3.5, 3.5, 5, 5, 6.5]);
  assert.deepEqual(sizes.map(({ width }) => width), [1.25, 1.25, 2, 2, 3, 3]);
});

test("the styles of a look and an edit are made once", () => {
  const styling = new Styling(sizesAt(3));
  const edit = { mark: "basket", op: "replace" };
  assert.equal(styling.of(look, null), styling.of({ ...look }, null));
  assert.equal(styling.of(look, edit), styling.of(look, { ...edit }));
  assert.notEqual(styling.of(look, edit), styling.of(look, null));
  assert.notEqual(styling.of(look, edit), styling.of(look, { ...edit, op: "delete" }));
});

test("an edit that waits is marked, and what is deleted is faint", () => {
  const styling = new Styling(sizesAt(3));
  const { point, line, area } = styling.of(look, { mark: "basket", op: "delete" });
  assert.deepEqual(line.dash, [6, 4]);
  assert.equal(point.color, "--mark-basket");
  assert.ok(point.fillOpacity < 1 && area.fillOpacity < 0.25 && line.opacity < 1);
  const plain = styling.of(look, null);
  assert.deepEqual(plain.line.dash, []);
  assert.equal(plain.point.fillColor, "#c21e14");
});
