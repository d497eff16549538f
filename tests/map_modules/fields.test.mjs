import assert from "node:assert/strict";
import { test } from "node:test";
import {
  accuracyText,
  fieldText,
  fieldValue,
  firstText,
  holds,
  readFields,
} from "../../map/modules/fields.js";

const one = (described) => readFields([described])[0];

test("a field has its label, type and default", () => {
  const field = one({ name: "watts", label: "Watts", type: "whole", default: 35, required: true });
  assert.equal(field.label, "Watts");
  assert.equal(firstText(field, new Date()), "35");
  assert.equal(field.isRequired, true);
  assert.equal(one({ name: "note" }).label, "note");
  assert.equal(one({ name: "note" }).type, "text");
});

test("each type writes its values", () => {
  const cases = [
    [{ name: "a" }, " x ", " x "],
    [{ name: "a" }, "  ", undefined],
    [{ name: "a", type: "whole" }, "007", 7],
    [{ name: "a", type: "whole" }, "-0", 0],
    [{ name: "a", type: "whole" }, "9223372036854775807", 9223372036854775807n],
    [{ name: "a", type: "decimal" }, "3,50", "3.50"],
    [{ name: "a", type: "decimal" }, "-3", "-3"],
    [{ name: "a", type: "date" }, "2024-02-29", "2024-02-29"],
    [{ name: "a", type: "yes/no" }, "no", false],
    [{ name: "a", type: "choice", choices: [28, "35", true] }, "28", 28],
    [{ name: "a", type: "choice", choices: [28, "35", true] }, "35", "35"],
    [{ name: "a", type: "choice", choices: [28, "35", true] }, "yes", true],
  ];
  for (const [described, text, value] of cases) {
    assert.equal(fieldValue(one(described), text), value, JSON.stringify(described) + text);
  }
});

test("what a field cannot write is refused with its label", () => {
  const cases = [
    [{ name: "a", label: "Watts", type: "whole" }, "3.5", /Watts.*no whole number/],
    [{ name: "a", label: "Watts", type: "whole" }, "99999999999999999999", /too large/],
    [{ name: "a", label: "Height", type: "decimal" }, "3.", /Height.*no number/],
    [{ name: "a", label: "Set", type: "date" }, "2023-02-29", /Set.*no day/],
    [{ name: "a", label: "Street", required: true }, " ", /Street.*needed/],
  ];
  for (const [described, text, message] of cases) {
    assert.throws(() => fieldValue(one(described), text), message);
  }
});

test("a value that a field holds is written again as it was", () => {
  const fields = [
    [{ name: "a", type: "whole" }, 12],
    [{ name: "a", type: "decimal" }, "3.20"],
    [{ name: "a", type: "yes/no" }, true],
    [{ name: "a", type: "choice", choices: ["x", 5] }, 5],
    [{ name: "a", type: "date" }, "2020-01-31"],
  ];
  for (const [described, value] of fields) {
    assert.equal(holds(one(described), value), true);
    assert.equal(fieldValue(one(described), fieldText(value)), value);
  }
  assert.equal(holds(one({ name: "a", type: "whole" }), "12"), false);
  assert.equal(holds(one({ name: "a", type: "text" }), null), false);
  assert.equal(holds(one({ name: "a", type: "date" }), "2020-01-31T00:00:00Z"), false);
});

test("today is the day of the device", () => {
  const field = one({ name: "set", type: "date", default: "today" });
  assert.equal(firstText(field, new Date(2026, 2, 4)), "2026-03-04");
  assert.equal(field.isCopied, false);
});

test("an accuracy is rounded up", () => {
  assert.equal(accuracyText(one({ name: "a", type: "decimal", from: "accuracy" }), 3.21), "3.3");
  assert.equal(accuracyText(one({ name: "a", type: "whole", from: "accuracy" }), 3.21), "4");
});

test("a description of another form is refused", () => {
  const bad = [
    [{}],
    [null],
    [{ name: "" }],
    [{ name: 1 }],
    [{ name: "a", type: "html" }],
    [{ name: "a", label: {} }],
    [{ name: "a", type: "choice" }],
    [{ name: "a", type: "choice", choices: [{}] }],
    [{ name: "a", type: "choice", choices: [1.5] }],
    [{ name: "a", type: "whole", default: "x" }],
    [{ name: "a", type: "date", from: "accuracy" }],
    [{ name: "a" }, { name: "a" }],
    "fields",
  ];
  for (const described of bad) {
    assert.throws(() => readFields(described), JSON.stringify(described));
  }
  assert.deepEqual(readFields(undefined), []);
});
