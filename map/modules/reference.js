/**
 * @file The office's reference system, whose east and north are shown beside metres of the grid.
 * `map.json` has the scale and the shift with which the town was loaded:
 *
 *     {"grid": {"system": "EPSG:25832", "scale": 1000, "shift": [565000, 5934000]}}
 *
 * A coordinate n of the system is (n - shift) * scale in the grid. A unit of the system is `scale`
 * millimetres, the same for both axes. A system that is turned against the grid, or whose axes are
 * swapped, cannot be described.
 *
 * @typedef {object} Reference
 * @property {string} system its name, for people
 * @property {number} scale how many millimetres a unit has
 * @property {number[]} shift east and north of the grid's 0,0 in the system's units
 */
import { say } from "./words.js";

/** A unit is at most 1,000 km. */
const MOST_SCALE = 1e9;
/** A shift is at most this far, so that a double holds it to less than a tenth of a millimetre. */
const MOST_SHIFT = 1e11;

/**
 * @param {any} json what `map.json` holds
 * @returns {Reference | null} null if it has none; it throws, saying why, if it has another form
 */
export function readReference(json) {
  const grid = json?.grid;
  if (grid === undefined) return null;
  const isNumber = (value) => typeof value === "number" && Math.abs(value) <= MOST_SHIFT;
  const { system, scale, shift } = grid ?? {};
  const isScale = isNumber(scale) && scale > 0 && scale <= MOST_SCALE;
  const isShift = Array.isArray(shift) && shift.length === 2 && shift.every(isNumber);
  if (typeof system !== "string" || system === "" || !isScale || !isShift) {
    throw new Error(say("it needs a system, a scale above 0, and a shift of two numbers"));
  }
  return { system, scale, shift };
}

/**
 * @param {Reference} reference
 * @param {import("./geometry.js").Position} position in millimetres of the grid
 * @returns {string[]} east and north in the system's units, to the nearest millimetre or better
 */
export function inReference({ scale, shift }, position) {
  const digits = Math.max(0, Math.ceil(Math.log10(scale) - 1e-9));
  return shift.map((origin, axis) => {
    const text = (origin + position[axis] / scale).toFixed(digits);
    return /^-[0.]+$/.test(text) ? text.slice(1) : text;
  });
}

/**
 * @param {Reference} reference
 * @param {import("./geometry.js").Position} position
 * @returns {string} east and north, and of which system they are
 */
export function referenceInWords(reference, position) {
  const [east, north] = inReference(reference, position);
  return say("{east} E, {north} N ({system})", { east, north, system: reference.system });
}
