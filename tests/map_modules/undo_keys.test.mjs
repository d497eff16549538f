import assert from "node:assert/strict";
import { test } from "node:test";
import { askedBy } from "../../map/modules/undo_keys.js";

const key = (name, ...held) => ({ key: name, ...Object.fromEntries(held.map((it) => [it, true])) });

test("the usual keys of both kinds of keyboards", () => {
  const cases = [
    [key("z", "ctrlKey"), "undo"],
    [key("Z", "ctrlKey", "shiftKey"), "redo"],
    [key("y", "ctrlKey"), "redo"],
    [key("z", "metaKey"), "undo"],
    [key("Z", "metaKey", "shiftKey"), "redo"],
    [key("z"), null],
    [key("y"), null],
    [key("Y", "ctrlKey", "shiftKey"), null],
    [key("z", "ctrlKey", "altKey"), null],
    [key("a", "ctrlKey"), null],
  ];
  for (const [event, asked] of cases) assert.equal(askedBy(event), asked);
});
