import assert from "node:assert/strict";
import { test } from "node:test";
import { isEqual, readJson, writeJson } from "../../map/modules/json.js";

test("long whole numbers are kept, and read and written again", () => {
  const text = '{"a":[9007199254740993,"9007199254740993",1.5],"b":null}';
  assert.equal(readJson(text).a[0], 9007199254740993n);
  assert.equal(writeJson(readJson(text)), text);
});

test("values are equal as JSON", () => {
  const text = '{"a":[1,{"b":null}],"c":9007199254740993,"d":"x"}';
  assert.equal(isEqual(readJson(text), readJson(text)), true);
  assert.equal(isEqual({ a: 1, b: 2 }, { b: 2, a: 1 }), true);
  const different = [
    [{ a: 1 }, { a: 1, b: undefined }],
    [{ a: 1 }, { b: 1 }],
    [[1], { 0: 1 }],
    [null, {}],
    [1, "1"],
    [[1, 2], [2, 1]],
    [[1, 2], [1, 2, 3]],
    [[[1, 2]], [[1, 3]]],
    [[undefined], []],
    [readJson("9007199254740993"), readJson("9007199254740992")],
    [{ toString: 1 }, {}],
  ];
  for (const [one, other] of different) {
    assert.equal(isEqual(one, other), false);
    assert.equal(isEqual(other, one), false);
  }
});
