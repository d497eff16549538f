/**
 * @file Lengths and areas of what is drawn, in metres of the grid.
 *
 * @typedef {import("./geometry.js").Geometry} Geometry
 * @typedef {import("./geometry.js").Position} Position
 */
import { paths } from "./geometry.js";
import { inDigits, say } from "./words.js";

/**
 * @param {Position[]} positions
 * @returns {number} the length along them, in millimetres
 */
export function lengthOf(positions) {
  let sum = 0;
  for (let index = 1; index < positions.length; index += 1) {
    const [[fromX, fromY], [toX, toY]] = [positions[index - 1], positions[index]];
    sum += Math.hypot(toX - fromX, toY - fromY);
  }
  return sum;
}

/**
 * @param {Position[]} ring closed or not
 * @returns {number} the area within, in square millimetres, whichever way the ring runs
 */
export function areaOf(ring) {
  if (ring.length === 0) return 0;
  // From its first position, so that a ring far from 0,0 loses no digits.
  const [[x0, y0]] = ring;
  let double = 0;
  ring.forEach(([x, y], index) => {
    const [nextX, nextY] = ring[(index + 1) % ring.length];
    double += (x - x0) * (nextY - y0) - (nextX - x0) * (y - y0);
  });
  return Math.abs(double) / 2;
}

/**
 * @param {Geometry | null} geometry
 * @returns {{length: number, area: number}} of all lines or rings, in millimetres and square
 *   millimetres; the area of holes is taken off
 */
export function measured(geometry) {
  let [length, area] = [0, 0];
  const holes = new Set();
  const polygons = geometry?.type === "Polygon" ? [geometry.coordinates] : [];
  if (geometry?.type === "MultiPolygon") polygons.push(...geometry.coordinates);
  for (const [, ...others] of polygons) for (const ring of others) holes.add(ring);
  for (const { positions, kind } of paths(geometry)) {
    if (kind === "line" || kind === "ring") length += lengthOf(positions);
    if (kind === "ring") area += holes.has(positions) ? -areaOf(positions) : areaOf(positions);
  }
  return { length, area };
}

/**
 * @param {import("./sketch.js").SketchKind} kind
 * @param {Position[]} positions of a sketch, a ring's not closed
 * @returns {{length: number, area: number}} as of `measured`
 */
export function sketchMeasured(kind, positions) {
  const isRing = kind === "ring" && positions.length > 2;
  const all = isRing ? [...positions, positions[0]] : positions;
  return { length: lengthOf(all), area: isRing ? areaOf(all) : 0 };
}

/**
 * @param {{length: number, area: number}} measures as of `measured`
 * @returns {string} the length in metres, of an area its outline and its square metres; no text of
 *   points
 */
export function measuresInWords({ length, area }) {
  if (length === 0) return "";
  const metres = inDigits(length / 1000, 2);
  if (area === 0) return say("{metres} m long", { metres });
  return say("{area} m², {metres} m around", { area: inDigits(area / 1e6, 2), metres });
}
