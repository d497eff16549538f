/**
 * @file The kinds of values that a property may have, and the values that texts of a kind write.
 */
import { readJson } from "./json.js";
import { say } from "./words.js";

export const KINDS = {
  text: say("text"),
  number: say("number"),
  truth: say("yes/no"),
  nothing: say("nothing"),
  json: "JSON",
};
export const TRUTH_TEXTS = { yes: say("yes"), no: say("no") };
const LEAST = -(2n ** 63n);
const MOST = 2n ** 64n - 1n;
/** A whole number as people write it; what begins with a zero is a code, and stays text. */
const WHOLE = /^(0|-?[1-9]\d{0,18})$/;

/**
 * @param {any} value
 * @returns {keyof typeof KINDS}
 */
export function kindOf(value) {
  if (value === null) return "nothing";
  if (typeof value === "boolean") return "truth";
  if (typeof value === "number" || typeof value === "bigint") return "number";
  return typeof value === "string" ? "text" : "json";
}

/**
 * @param {string} text that was typed for a property that no other feature has
 * @returns {keyof typeof KINDS} the kind that it resembles; a fraction is text, since the server
 *   takes whole numbers alone
 */
export function kindTyped(text) {
  if (/^(true|false)$/i.test(text.trim())) return "truth";
  return WHOLE.test(text.trim()) ? "number" : "text";
}

/**
 * @param {Iterable<import("./feature.js").Feature>} features
 * @param {number} most how many names are wanted
 * @returns {Map<string, string>} the names of their properties, and the kind that each has mostly
 */
export function kindsIn(features, most) {
  /** @type {Map<string, Map<string, number>>} */
  const counts = new Map();
  for (const { properties } of features) {
    for (const [name, value] of Object.entries(properties ?? {})) {
      if (!counts.has(name) && counts.size === most) continue;
      const kinds = counts.get(name) ?? new Map();
      counts.set(name, kinds);
      if (value !== null) kinds.set(kindOf(value), (kinds.get(kindOf(value)) ?? 0) + 1);
    }
  }
  const mostly = (kinds) => [...kinds].sort(([, one], [, other]) => other - one)[0]?.[0];
  return new Map([...counts].map(([name, kinds]) => [name, mostly(kinds)]));
}

/**
 * Refuses numbers that the server does not take.
 * @param {any} value
 * @param {string} name of the property
 */
export function checkNumbers(value, name) {
  if (typeof value === "number" && !Number.isInteger(value)) {
    throw new Error(say(
      "{name}: a number has to be whole. Write it as text, or in a smaller unit.",
      { name },
    ));
  }
  const isNumber = typeof value === "number" || typeof value === "bigint";
  if (isNumber && !(value >= LEAST && value <= MOST)) {
    throw new Error(say("{name}: the number is too large.", { name }));
  }
  if (value !== null && typeof value === "object") {
    for (const inner of Object.values(value)) checkNumbers(inner, name);
  }
}

/**
 * @param {string} name of the property
 * @param {string} kind
 * @param {string} text
 * @returns {any} the value that was written
 */
export function valueOf(name, kind, text) {
  if (kind === "text") return text;
  if (kind === "nothing") return null;
  if (kind === "truth") return text === "yes";
  if (kind === "number" && !/^\s*-?\d+\s*$/.test(text)) {
    const other = say("Choose the kind text for anything else.");
    throw new Error(say("{name}: “{text}” is no whole number. {other}", { name, text, other }));
  }
  try {
    return readJson(kind === "number" ? String(BigInt(text.trim())) : text);
  } catch {
    throw new Error(say("{name}: “{text}” is no JSON.", { name, text }));
  }
}

/**
 * @param {string} text
 * @returns {object | null} the properties that a raw JSON text writes
 */
export function readProperties(text) {
  let value;
  try {
    value = text.trim() === "" ? null : readJson(text);
  } catch (fault) {
    throw new Error(say("The JSON cannot be read: {message}", { message: fault.message }));
  }
  if (typeof value !== "object" || Array.isArray(value)) {
    throw new Error(say("Properties are an object {..} or null."));
  }
  return value;
}
