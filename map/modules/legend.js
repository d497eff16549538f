/**
 * @file How the office has features drawn: the label of each, and its symbol by a property.
 *
 *     {"collections": {"lamps": {
 *       "label": "plate",
 *       "symbols": {"property": "state", "values": [
 *         {"value": "broken", "label": "Broken", "colour": "#c21e14", "shape": "square"}, ..]}}}}
 *
 * A colour is `#rrggbb`, or from 0 to 7 one of the page's own, which suit light and dark.
 *
 * @typedef {import("./feature.js").Feature} Feature
 * @typedef {"circle" | "square" | "triangle" | "diamond"} SymbolShape
 * @typedef {object} SymbolRow
 * @property {any} value of the property
 * @property {string} label
 * @property {string | null} colour a colour, or the name of one in the style sheet; null for that
 *   of the collection
 * @property {SymbolShape} shape of points
 * @typedef {object} Legend
 * @property {string} label the property that is the label; no text if none is set
 * @property {string} property by which symbols are chosen; no text if none is set
 * @property {SymbolRow[]} rows
 */
import { kindOf } from "./kinds.js";
import { valueText } from "./texts.js";
import { say } from "./words.js";

const SHAPES = ["circle", "square", "triangle", "diamond"];
const COLOUR = /^#[0-9a-f]{6}$/i;
const PAGE_COLOURS = 8;
const MOST_ROWS = 40;
const MOST_LABEL = 40;

/**
 * @param {any} colour as it is described
 * @returns {string | null}
 */
function readColour(colour) {
  if (colour === undefined) return null;
  if (typeof colour === "string" && COLOUR.test(colour)) return colour;
  if (Number.isInteger(colour) && colour >= 0 && colour < PAGE_COLOURS) {
    return `collection-${colour}`;
  }
  throw new Error(say("a colour is #rrggbb, or from 0 to 7"));
}

/**
 * @param {any} described
 * @returns {SymbolRow}
 */
function readRow(described) {
  const { value, label, colour, shape = "circle" } = described ?? {};
  if (!["text", "number", "truth"].includes(kindOf(value ?? null))) {
    throw new Error(say("a symbol is of a text, a number, true or false"));
  }
  if (!SHAPES.includes(shape)) {
    throw new Error(say("a shape is one of {shapes}", { shapes: SHAPES.join(", ") }));
  }
  const isText = typeof label === "string";
  return { value, label: isText ? label : valueText(value), colour: readColour(colour), shape };
}

/**
 * @param {any} described a collection in `map.json`
 * @returns {Legend} it throws, saying why, if it has another form
 */
export function readLegend(described) {
  const { label = "", symbols = null } = described ?? {};
  if (typeof label !== "string") throw new Error(say("its label is no name of a property"));
  if (symbols === null) return { label, property: "", rows: [] };
  const { property, values } = symbols;
  if (typeof property !== "string" || !Array.isArray(values) || values.length > MOST_ROWS) {
    throw new Error(say("its symbols have another form"));
  }
  return { label, property, rows: values.map(readRow) };
}

/**
 * @param {object | null} properties
 * @param {string} name
 * @returns {any} the property; undefined if it is not there
 */
function own(properties, name) {
  return name && properties && Object.hasOwn(properties, name) ? properties[name] : undefined;
}

/**
 * @param {Legend | undefined} legend
 * @param {Feature} feature
 * @returns {SymbolRow | null} null if it is drawn as its collection is
 */
export function symbolOf(legend, { properties }) {
  if (!legend?.property) return null;
  const value = own(properties, legend.property);
  return legend.rows.find((row) => row.value === value) ?? null;
}

/**
 * @param {Legend | undefined} legend
 * @param {Feature} feature
 * @returns {string} the label; no text if it has none
 */
export function labelOf(legend, { properties }) {
  const value = own(properties, legend?.label ?? "");
  if (value === undefined || value === null) return "";
  const text = valueText(value);
  return text.length > MOST_LABEL ? `${text.slice(0, MOST_LABEL - 1)}…` : text;
}
