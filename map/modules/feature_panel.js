/**
 * @file The panel of a feature: its id, properties, time and geometry as text.
 */
import { announce, askInDialog, button, element, renew } from "./element.js";
import { middleOf } from "./geometry.js";
import { writeJson } from "./json.js";
import { measured, measuresInWords } from "./measure.js";
import { geometryText, pendingText, valueText } from "./texts.js";
import { clock, isTime, timeInWords } from "./time.js";
import { say } from "./words.js";

/**
 * @param {object | null} properties
 * @returns {HTMLElement}
 */
function propertiesTable(properties) {
  const rows = Object.entries(properties ?? {}).map(([name, value]) =>
    element("tr", {}, element("th", { scope: "row" }, name), element("td", {}, valueText(value))),
  );
  if (rows.length === 0) return element("p", { class: "note" }, say("It has no properties."));
  return element("table", { class: "shown" }, element("tbody", {}, ...rows));
}

/**
 * @param {object | null} properties
 * @returns {HTMLElement[]} the times among them
 */
function times(properties) {
  const found = Object.entries(properties ?? {}).filter(([, value]) => isTime(value));
  const lines = found.map(([name, value]) => element("li", {}, `${name}: ${timeInWords(value)}`));
  if (lines.length === 0) return [];
  return [element("h3", {}, say("Time")), element("ul", { class: "times" }, ...lines)];
}

/**
 * Copies a text, or shows it if the browser does not let it be copied.
 * @param {string} text
 */
async function copy(text) {
  try {
    await navigator.clipboard.writeText(text);
    announce(say("Copied as GeoJSON."));
  } catch {
    const area = element("textarea", { rows: 12, readonly: true, "aria-label": "GeoJSON" });
    area.value = text;
    await askInDialog("GeoJSON", [area], [{ text: say("Close"), value: true }]);
  }
}

/**
 * @param {HTMLElement} panel
 * @param {object} shown
 * @param {string} shown.title of the collection
 * @param {string} shown.colour the name of the collection's colour
 * @param {string} shown.collection
 * @param {import("./feature.js").Feature} shown.feature
 * @param {import("./pending.js").Pending} [shown.pending]
 * @param {number} [shown.seen] when the server showed it
 * @param {(position: import("./geometry.js").Position) => string[]} shown.beside a position in
 *   other systems than the grid
 * @param {readonly {collection: string, id: string}[]} shown.others features at the same place
 * @param {{onEdit: () => void, onDelete: () => void, onTakeOut: () => void, onGo: () => void,
 *   onSelect: (collection: string, id: string) => void}} listener
 */
export function showFeature(panel, shown, listener) {
  const { title, colour, feature, pending, seen, beside, others } = shown;
  const { id, geometry, properties } = feature;
  const isGone = pending?.edit.op === "delete";
  const middle = middleOf(geometry);
  const texts = middle ? beside(middle) : [];
  const measures = measuresInWords(measured(geometry));
  const alsoHere = others.map((other) =>
    button(other.id, () => listener.onSelect(other.collection, other.id)),
  );
  renew(
    panel,
    element("h2", { tabindex: -1 }, id),
    element(
      "p",
      { class: "of" },
      element("span", { class: `swatch ${colour}` }),
      title,
    ),
    pending ? element("p", { class: `mark mark-${pending.mark}` }, pendingText(pending)) : "",
    element(
      "p", { class: "buttons" },
      isGone ? null : button(say("Edit"), listener.onEdit, { class: "main" }),
      isGone ? null : button(say("Delete"), listener.onDelete),
      pending?.mark === "basket" ? button(say("Take out"), listener.onTakeOut) : null,
      button(say("Show"), listener.onGo),
      button(say("Copy as GeoJSON"), () => copy(writeJson(feature))),
    ),
    element("h3", {}, say("Properties")), propertiesTable(properties),
    ...times(properties),
    element("h3", {}, say("Geometry")), element(
      "pre",
      { tabindex: 0, role: "group", "aria-label": say("Geometry in metres") },
      geometryText(geometry),
    ),
    measures ? element("p", { class: "note" }, measures) : "",
    ...texts.map((text) => element("p", { class: "note beside" }, text)),
    seen && !pending ? element("p", { class: "note" }, say(
      "As of {time}.",
      { time: clock(seen) },
    )) : "",
    alsoHere.length ? element("h3", {}, say("Also here")) : "",
    alsoHere.length ? element("p", { class: "buttons" }, ...alsoHere) : "",
  );
}
