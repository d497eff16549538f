/**
 * @file Features as the server writes them, and what is the same and what differs between two.
 *
 * @typedef {import("./geometry.js").Geometry} Geometry
 * @typedef {{type: "Feature", id: string, geometry: Geometry | null, properties: object | null}}
 *   Feature
 * @typedef {{what: string, one: unknown, other: unknown, isGeometry?: boolean}} Difference
 */
import { oriented } from "./geometry.js";
import { writeJson } from "./json.js";

/**
 * @param {string} collection
 * @param {string} id
 * @returns {string} the name of a feature among all collections
 */
export function nameOf(collection, id) {
  return `${collection}/${id}`;
}

/**
 * @param {any} value a feature of an answer
 * @returns {Feature} the four members that belong to it
 */
export function bare({ id, geometry = null, properties = null }) {
  return { type: "Feature", id: String(id), geometry, properties };
}

/**
 * @param {any} value
 * @returns {any} the same with the members of each object in the order of their names
 */
function sorted(value) {
  if (Array.isArray(value)) return value.map(sorted);
  if (value === null || typeof value !== "object") return value;
  const names = Object.keys(value).sort();
  return Object.fromEntries(names.map((name) => [name, sorted(value[name])]));
}

/**
 * @param {any} value
 * @returns {string} a text that two values share if they are equal as JSON
 */
export function textOf(value) {
  return value === undefined ? "" : writeJson(sorted(value));
}

/**
 * @param {Feature | null} one
 * @param {Feature | null} other
 * @returns {boolean} whether the server keeps the two as the same
 */
export function isSame(one, other) {
  return differences(one, other).length === 0;
}

/**
 * @param {Feature | null} one
 * @param {Feature | null} other
 * @returns {Difference[]} the geometry and the properties in which the two differ
 */
export function differences(one, other) {
  if (!one || !other) {
    const sides = { one: one ?? undefined, other: other ?? undefined };
    return one || other ? [{ what: "the feature", ...sides }] : [];
  }
  /** @type {Difference[]} */
  const found = [];
  const compare = (what, left, right) => {
    if (textOf(left) !== textOf(right)) found.push({ what, one: left, other: right });
  };
  compare("geometry", oriented(one.geometry), oriented(other.geometry));
  if (found.length > 0) found[0].isGeometry = true;
  if (!one.properties || !other.properties) {
    compare("properties", one.properties, other.properties);
    return found;
  }
  const names = new Set([...Object.keys(one.properties), ...Object.keys(other.properties)]);
  for (const name of [...names].sort()) {
    compare(name, own(one.properties, name), own(other.properties, name));
  }
  return found;
}

/**
 * @param {object} properties
 * @param {string} name
 * @returns {unknown} the property, or undefined; never what all objects inherit
 */
function own(properties, name) {
  return Object.hasOwn(properties, name) ? properties[name] : undefined;
}

/**
 * @param {string} id
 * @returns {boolean} whether the server takes it: 1 to 128 bytes without control characters
 */
export function isId(id) {
  const bytes = new TextEncoder().encode(id).length;
  return bytes >= 1 && bytes <= 128 && !/\p{Cc}/u.test(id);
}
