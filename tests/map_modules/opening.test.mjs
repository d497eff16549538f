import assert from "node:assert/strict";
import { test } from "node:test";
import { batchText } from "../../map/modules/batch.js";
import { idFrom, readOpening } from "../../map/modules/opening.js";

test("an id reads like the title", () => {
  const ids = [
    ["Street lamps", "street-lamps"],
    ["Bäume & Sträucher", "baume-straucher"],
    ["Straße", "strasse"],
    ["  2nd  ", "2nd"],
    ["Деревья", ""],
    ["a".repeat(70), "a".repeat(64)],
  ];
  for (const [title, id] of ids) assert.equal(idFrom(title), id);
});

test("what the server takes is read", () => {
  const typed = { title: " Lamps ", id: "lamps", time: "set" };
  const opening = { collection: "lamps", title: "Lamps", time: "set" };
  assert.deepEqual(readOpening(typed, ["trees"]), opening);
});

test("what the server does not take is refused", () => {
  const typed = { title: "Lamps", id: "lamps", time: "" };
  const bad = [
    [{ title: " " }, /title is needed/],
    [{ title: "ß".repeat(129) }, /title is too long/],
    [{ id: "" }, /An id/],
    [{ id: "-a" }, /An id/],
    [{ id: "a b" }, /An id/],
    [{ id: "trees" }, /There is a collection/],
    [{ time: "ß".repeat(65) }, /time property is too long/],
  ];
  for (const [part, message] of bad) {
    assert.throws(() => readOpening({ ...typed, ...part }, ["trees"]), message);
  }
});

test("the batch opens the collection, with a time property if there is one", () => {
  const edit = { op: "open", collection: "lamps", id: "", title: "Lamps", time: "set" };
  const lamps = { ...edit, feature: null, base: null };
  const text = batchText("k", [lamps, { ...lamps, time: "" }]);
  assert.deepEqual(JSON.parse(text).edits, [
    { op: "open", collection: "lamps", title: "Lamps", time: "set" },
    { op: "open", collection: "lamps", title: "Lamps" },
  ]);
});
