import assert from "node:assert/strict";
import { test } from "node:test";
import { chooseLanguage, fillIn, inDigits, say } from "../../map/modules/words.js";

test("the first language that the table has is chosen, or English", () => {
  const cases = [
    [["de-AT", "en"], "de"],
    [["fr", "DE"], "de"],
    [["fr-FR"], "en"],
    [["en-GB", "de"], "en"],
    [[], "en"],
  ];
  for (const [wanted, chosen] of cases) assert.equal(chooseLanguage(wanted), chosen);
});

test("parts are filled in once, and what is no part stays", () => {
  assert.equal(fillIn("{a} and {b}", { a: "{b}", b: 2 }), "{b} and 2");
  assert.equal(fillIn("{toString} {..}", {}), "{toString} {..}");
});

test("without a page, texts are English", () => {
  assert.equal(say("{count} edits", { count: 3 }), "3 edits");
});

test("numbers have the marks of the language, and as many digits as are asked for", () => {
  const cases = [
    [[5200], "5,200"],
    [[1.5], "1.5"],
    [[12, 2], "12.00"],
    [[-1234.5678, 3], "-1,234.568"],
    [[0, 0], "0"],
  ];
  for (const [given, text] of cases) assert.equal(inDigits(...given), text);
});
