/**
 * @file The dialog in which the user decides between an edit and what another changed since.
 */
import { decided } from "./conflicts.js";
import { askInDialog, element } from "./element.js";
import { differences, isSame } from "./feature.js";
import { bothChanged, canMerge } from "./merging.js";
import { changeEdits } from "./queue.js";
import { geometryText, sides, valueText } from "./texts.js";
import { say } from "./words.js";

/**
 * @param {import("./basket.js").Edit} edit
 * @param {import("./feature.js").Feature | null} theirs
 * @param {string[]} [names] of what was, of what the edit makes of it, and of what is there now
 * @returns {HTMLElement}
 */
function comparison(edit, theirs, names = [say("It was"), say("Mine"), say("Theirs")]) {
  const whats = new Map();
  const add = (list) => list.forEach(({ what }) => whats.set(what, true));
  add(differences(edit.base, edit.feature));
  add(differences(edit.base, theirs));
  add(differences(edit.feature, theirs));
  const cell = (feature, what) => {
    if (!feature) return say("not there");
    if (what === "the feature") return say("there");
    const isMember = what === "geometry" || what === "properties";
    const value = isMember ? feature[what] : feature.properties?.[what];
    return sides({ what, one: value, other: value })[0];
  };
  const rows = [...whats.keys()].map((what) =>
    element(
      "tr", {}, element("th", { scope: "row" }, what),
      ...[edit.base, edit.feature, theirs].map((feature) => element("td", {}, cell(feature, what))),
    ),
  );
  const head = ["", ...names].map((text) => element("th", { scope: "col" }, text));
  return element(
    "div", { class: "scrolled", tabindex: 0, role: "group", "aria-label": say("Comparison") },
    element(
      "table",
      { class: "comparison" },
      element("thead", {}, element("tr", {}, ...head)),
      element("tbody", {}, ...rows),
    ),
  );
}

/**
 * @param {import("./basket.js").Edit} edit
 * @param {import("./feature.js").Feature | null} theirs
 * @returns {string} in a sentence
 */
function sentence(edit, theirs) {
  const isDeleting = edit.op === "delete";
  if (!theirs && isDeleting) return say("Another has deleted it already.");
  if (!theirs) return say("Another has deleted it.");
  if (isSame(edit.feature, theirs)) return say("Another has made the same change already.");
  if (isDeleting) return say("Another has changed what you delete.");
  return say("Another has changed it too.");
}

/**
 * @param {import("./basket.js").Edit} edit
 * @param {import("./feature.js").Feature | null} theirs
 * @returns {{text: string, value: string}[]}
 */
function choices(edit, theirs) {
  const leave = { text: theirs ? say("Take theirs") : say("Leave it deleted"), value: "theirs" };
  const drop = { text: say("Decide later"), value: null };
  if (edit.op === "delete" && !theirs) return [leave, drop];
  const texts = {
    delete: say("Delete it all the same"),
    replace: theirs ? say("Keep mine") : say("Put mine back"),
  };
  return [leave, { text: texts[edit.op], value: "mine" }, drop];
}

/**
 * Asks whether an edit replaces the one that another tab made meanwhile.
 * @param {import("./basket.js").Edit} edit
 * @param {import("./basket.js").Edit} other
 * @returns {Promise<"this" | "other" | null>} null if the user goes on editing
 */
export function askBetweenTabs(edit, other) {
  const text = say("Another tab of this page has edited it since this form was opened.");
  const base = edit.base ?? other.base;
  return askInDialog(
    edit.id,
    [
      element("p", {}, text),
      comparison({ ...edit, base }, other.feature, [say("It was"), say("This form"), say(
        "The other tab",
      )]),
    ],
    [
      { text: say("Go on editing"), value: null },
      { text: say("Take this form"), value: "this" },
      { text: say("Take the other tab"), value: "other" },
    ],
  );
}

/**
 * @param {import("./basket.js").Edit} edit
 * @param {import("./feature.js").Feature | null} theirs
 * @returns {{content: Node[], answers: {text: string, value: any}[]}} what is asked about an edit
 */
function question(edit, theirs) {
  const usual = [element("p", {}, sentence(edit, theirs)), comparison(edit, theirs)];
  if (!canMerge(edit, theirs)) return { content: usual, answers: choices(edit, theirs) };
  const both = bothChanged(edit, theirs);
  const text = say("What only one of you changed is kept. Both of you changed this:");
  const content = [...usual, element("p", {}, text)];
  const rows = both.map((conflict) => new ChoiceRow(edit, theirs, conflict));
  content.push(...rows.map((row) => row.element));
  const chosen = () => {
    const sides = new Map(rows.map((row) => [row.key, row.side()]));
    return (what, isGeometry) => sides.get(`${isGeometry} ${what}`);
  };
  const take = { text: say("Take what I chose"), value: chosen };
  return { content, answers: [take, ...choices(edit, theirs)] };
}

/** What both changed: mine or theirs, neither of which is chosen at first. */
class ChoiceRow {
  /** @type {HTMLInputElement[]} */
  #options;
  #what;

  /**
   * @param {import("./basket.js").Edit} edit
   * @param {import("./feature.js").Feature} theirs
   * @param {{what: string, isGeometry: boolean}} conflict
   */
  constructor(edit, theirs, { what, isGeometry }) {
    this.key = `${isGeometry} ${what}`;
    this.#what = what;
    const valueOf = (feature) => (isGeometry ? feature.geometry : feature.properties?.[what]);
    const text = (feature) => {
      const value = valueOf(feature);
      return isGeometry ? geometryText(value) : valueText(value);
    };
    const [mine, other] = ["mine", "theirs"].map((value) =>
      element("input", { type: "radio", name: `choice ${this.key}`, value }),
    );
    this.#options = [mine, other];
    this.element = element(
      "fieldset", { class: "described" },
      element("legend", {}, what),
      element(
        "span", { class: "chips" },
        element("label", { class: "chip" }, mine, `${say("Mine")}: ${text(edit.feature)}`),
        element("label", { class: "chip" }, other, `${say("Theirs")}: ${text(theirs)}`),
      ),
    );
  }

  /** @returns {import("./merging.js").Side} it throws if none was chosen */
  side() {
    const chosen = this.#options.find(({ checked }) => checked);
    if (!chosen) throw new Error(say("Choose for “{what}” first.", { what: this.#what }));
    return /** @type {import("./merging.js").Side} */ (chosen.value);
  }
}

/**
 * Asks for each difference, and changes the batch by the decisions.
 * @param {import("./queue.js").Batch} batch
 */
export async function resolveDifferences(batch) {
  const decisions = [];
  const { length } = batch.differences;
  for (const [place, { index, theirs }] of batch.differences.entries()) {
    const edit = batch.edits[index];
    const counted = say("{number} of {count}", { number: place + 1, count: length });
    const { content, answers } = question(edit, theirs);
    const title = length > 1 ? `${edit.id} (${counted})` : edit.id;
    const decision = await askInDialog(title, content, answers, true);
    if (decision === null) return;
    decisions.push(decision);
  }
  await changeEdits(batch, decided(batch.edits, batch.differences, decisions));
}
