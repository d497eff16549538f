/**
 * @file What the office says in `map.json`, which lies beside the page: where the grid lies on the
 * earth and in the office's reference system, and the form and style of each collection. A part
 * that has another form is left out, and the page says which.
 *
 * @typedef {import("./fields.js").Field} Field
 * @typedef {object} Office
 * @property {import("./place.js").Place | null} place
 * @property {import("./reference.js").Reference | null} reference
 * @property {Map<string, Field[]>} forms the fields of collections
 * @property {Map<string, import("./legend.js").Legend>} legends how collections are drawn
 * @property {string[]} problems what of `map.json` is not used, and why
 */
import { readFields } from "./fields.js";
import { readJson } from "./json.js";
import { readLegend } from "./legend.js";
import { Place } from "./place.js";
import { readReference } from "./reference.js";

/**
 * @param {any} json what `map.json` holds
 * @returns {Office}
 */
export function officeOf(json) {
  /** @type {Office} */
  const office = {
    place: null,
    reference: null,
    forms: new Map(),
    legends: new Map(),
    problems: [],
  };
  const attempt = (where, read) => {
    try {
      read();
    } catch (fault) {
      office.problems.push(`${where}: ${fault.message}`);
    }
  };
  attempt("place", () => (office.place = Place.of(json)));
  attempt("grid", () => (office.reference = readReference(json)));
  const { collections = {} } = json ?? {};
  if (collections === null || typeof collections !== "object") {
    office.problems.push("collections: it is no object");
    return office;
  }
  for (const [id, described] of Object.entries(collections)) {
    attempt(id, () => office.forms.set(id, readFields(described?.fields)));
    attempt(id, () => office.legends.set(id, readLegend(described)));
  }
  return office;
}

/** @returns {Promise<Office>} what the office says; nothing if it says nothing */
export async function readOffice() {
  try {
    const response = await fetch("map.json", { cache: "no-cache" });
    return officeOf(response.ok ? readJson(await response.text()) : {});
  } catch (fault) {
    const office = officeOf({});
    office.problems.push(fault.message);
    return office;
  }
}
