/**
 * @file Where the grid lies on the earth: the table in `map.json` that places it in WGS 84.
 *
 *     {"place": {"system": "EPSG:25832", "error": 0.002, "patches": [
 *       {"box": [x0, y0, x1, y1], "longitude": [[..], ..], "latitude": [[..], ..]}, ..]}}
 *
 * A patch holds for the positions of its box, in whole millimetres. With u and v from -1 to 1 over
 * the box, longitude and latitude in degrees are the sums of c[i][j] u^i v^j. `error` is the
 * largest distance in metres between the table and the exact transformation that its writer found;
 * at most 0.01. `system` is for people.
 *
 * @typedef {import("./geometry.js").Position} Position
 * @typedef {{box: number[], longitude: number[][], latitude: number[][]}} Patch
 * @typedef {{longitude: number, latitude: number}} Degrees
 */
import { say } from "./words.js";

/** A table that errs by more, in metres, is not used. */
const MOST_ERROR = 0.01;
const TURNS = 12;
/** How near, in parts of half a box, an answer has to come. */
const NEAR = 1e-12;

/**
 * @param {number[][]} coefficients
 * @param {number} u
 * @param {number} v
 * @returns {{value: number, byU: number, byV: number}} the sum and its two derivatives
 */
function sum(coefficients, u, v) {
  let [value, byU, byV] = [0, 0, 0];
  for (let i = coefficients.length - 1; i >= 0; i -= 1) {
    let [inner, slope] = [0, 0];
    for (let j = coefficients[i].length - 1; j >= 0; j -= 1) {
      slope = slope * v + inner;
      inner = inner * v + coefficients[i][j];
    }
    byU = byU * u + value;
    value = value * u + inner;
    byV = byV * u + slope;
  }
  return { value, byU, byV };
}

/**
 * @param {any} table
 * @returns {boolean} whether it has the form above
 */
function isTable(table) {
  const isNumber = (value) => typeof value === "number" && Number.isFinite(value);
  const isRow = (row) => Array.isArray(row) && row.every(isNumber);
  const isRows = (rows) => Array.isArray(rows) && rows.every(isRow);
  const isBox = (box) => isRow(box) && box.length === 4 && box[0] < box[2] && box[1] < box[3];
  const isPatch = ({ box, longitude, latitude }) =>
    isBox(box) && isRows(longitude) && isRows(latitude);
  return isNumber(table?.error) && Array.isArray(table.patches) && table.patches.every(isPatch);
}

export class Place {
  /** @type {Patch[]} */
  #patches;

  /**
   * @param {{system?: string, error: number, patches: Patch[]}} table
   */
  constructor(table) {
    this.system = String(table.system ?? "");
    this.error = table.error;
    this.#patches = table.patches;
  }

  /**
   * @param {any} json what `map.json` holds
   * @returns {Place | null} null if it holds no table
   */
  static of(json) {
    if (json?.place === undefined) return null;
    if (!isTable(json.place)) throw new Error(say("The table in map.json has another form."));
    if (json.place.error > MOST_ERROR) {
      throw new Error(say(
        "The table in map.json errs by over 1 cm.",
      ));
    }
    return new Place(json.place);
  }

  /**
   * @param {Position} position in millimetres
   * @returns {Degrees | null} null outside of the table
   */
  toDegrees([x, y]) {
    /** @param {number[]} box */
    const holds = ([x0, y0, x1, y1]) => x0 <= x && x <= x1 && y0 <= y && y <= y1;
    const patch = this.#patches.find(({ box }) => holds(box));
    if (!patch) return null;
    const [x0, y0, x1, y1] = patch.box;
    const [u, v] = [(2 * x - x0 - x1) / (x1 - x0), (2 * y - y0 - y1) / (y1 - y0)];
    return {
      longitude: sum(patch.longitude, u, v).value,
      latitude: sum(patch.latitude, u, v).value,
    };
  }

  /**
   * @param {Degrees} degrees
   * @returns {Position | null} whole millimetres; null outside of the table
   */
  toGrid({ longitude, latitude }) {
    for (const patch of this.#patches) {
      const found = solve(patch, longitude, latitude);
      if (found) {
        const [x0, y0, x1, y1] = patch.box;
        const [x, y] = [(x0 + x1 + found.u * (x1 - x0)) / 2, (y0 + y1 + found.v * (y1 - y0)) / 2];
        return [Math.round(x), Math.round(y)];
      }
    }
    return null;
  }
}

/**
 * Newton's method from the middle of a patch.
 * @param {Patch} patch
 * @param {number} longitude
 * @param {number} latitude
 * @returns {{u: number, v: number} | null} null if the place is not in the patch
 */
function solve(patch, longitude, latitude) {
  let [u, v] = [0, 0];
  for (let turn = 0; turn < TURNS; turn += 1) {
    const east = sum(patch.longitude, u, v);
    const north = sum(patch.latitude, u, v);
    const [missEast, missNorth] = [longitude - east.value, latitude - north.value];
    const determinant = east.byU * north.byV - east.byV * north.byU;
    const stepU = (missEast * north.byV - missNorth * east.byV) / determinant;
    const stepV = (missNorth * east.byU - missEast * north.byU) / determinant;
    [u, v] = [u + stepU, v + stepV];
    if (!(Math.abs(u) < 4 && Math.abs(v) < 4)) return null;
    if (Math.abs(stepU) < NEAR && Math.abs(stepV) < NEAR) break;
  }
  return Math.abs(u) <= 1 + 1e-9 && Math.abs(v) <= 1 + 1e-9 ? { u, v } : null;
}

/**
 * @param {Degrees} degrees
 * @returns {string}
 */
export function degreesInWords({ longitude, latitude }) {
  const part = (value, plus, minus) =>
    `${Math.abs(value).toFixed(7)}° ${value < 0 ? minus : plus}`;
  return `${part(latitude, "N", "S")}, ${part(longitude, "E", "W")}`;
}
