/**
 * @file Geometries (RFC 7946) on the grid of whole millimetres: their positions, extents and
 * distances.
 *
 * @typedef {number[]} Position easting, northing and, if it has one, the height
 * @typedef {{type: string, coordinates?: any, geometries?: Geometry[]}} Geometry
 * @typedef {{x0: number, y0: number, x1: number, y1: number}} Box
 * @typedef {object} Path positions that belong together
 * @property {Position[]} positions the geometry's own array, but for a Point
 * @property {"point" | "points" | "line" | "ring"} kind
 * @property {number} least how many positions it must keep
 */
import { say } from "./words.js";

/** The largest coordinate that the server takes, in millimetres. */
export const MOST = 1_000_000_000;

/**
 * @param {Geometry | null} geometry
 * @returns {Geometry[]} the geometry, or the members of a GeometryCollection
 */
export function members(geometry) {
  if (!geometry) return [];
  return geometry.type === "GeometryCollection" ? geometry.geometries : [geometry];
}

/**
 * @param {Geometry | null} geometry
 * @returns {Path[]} all paths, the exterior ring of a polygon before its holes
 */
export function paths(geometry) {
  const line = (positions) => ({ positions, kind: "line", least: 2 });
  const ring = (positions) => ({ positions, kind: "ring", least: 4 });
  return members(geometry).flatMap(({ type, coordinates }) => {
    if (type === "Point") return [{ positions: [coordinates], kind: "point", least: 1 }];
    if (type === "MultiPoint") return [{ positions: coordinates, kind: "points", least: 1 }];
    if (type === "LineString") return [line(coordinates)];
    if (type === "MultiLineString") return coordinates.map(line);
    if (type === "Polygon") return coordinates.map(ring);
    return coordinates.flat().map(ring);
  });
}

/**
 * @param {Geometry} geometry a Polygon or a MultiPolygon
 * @returns {Position[][][]} the rings of each polygon
 */
function polygons({ type, coordinates }) {
  if (type === "Polygon") return [coordinates];
  return type === "MultiPolygon" ? coordinates : [];
}

/**
 * @param {Geometry | null} geometry
 * @returns {Box | null} the extent of all positions
 */
export function boxOf(geometry) {
  const box = { x0: Infinity, y0: Infinity, x1: -Infinity, y1: -Infinity };
  for (const { coordinates } of members(geometry)) widen(box, coordinates);
  return box.x0 === Infinity ? null : box;
}

/**
 * Makes a box as large as it has to be. It makes no lists: each feature that comes is measured.
 * @param {Box} box
 * @param {any} coordinates a position, or arrays of them at any depth
 */
function widen(box, coordinates) {
  if (typeof coordinates[0] !== "number") {
    for (const part of coordinates) widen(box, part);
    return;
  }
  const [x, y] = coordinates;
  if (x < box.x0) box.x0 = x;
  if (y < box.y0) box.y0 = y;
  if (x > box.x1) box.x1 = x;
  if (y > box.y1) box.y1 = y;
}

/**
 * @param {Box} one
 * @param {Box} other
 * @returns {boolean} whether they have a point in common
 */
export function overlaps(one, other) {
  return one.x0 <= other.x1 && other.x0 <= one.x1 && one.y0 <= other.y1 && other.y0 <= one.y1;
}

/**
 * @param {Box} outer
 * @param {Box} inner
 * @returns {boolean} whether the inner box lies in the outer one
 */
export function contains(outer, inner) {
  return (
    outer.x0 <= inner.x0 && outer.y0 <= inner.y0 && inner.x1 <= outer.x1 && inner.y1 <= outer.y1
  );
}

/**
 * @param {Position} point
 * @param {Position} start
 * @param {Position} end
 * @returns {number} the distance of a point from a segment
 */
function distanceToSegment([x, y], [startX, startY], [endX, endY]) {
  const [alongX, alongY] = [endX - startX, endY - startY];
  const square = alongX * alongX + alongY * alongY;
  const part = square === 0 ? 0 : ((x - startX) * alongX + (y - startY) * alongY) / square;
  const kept = Math.min(1, Math.max(0, part));
  return Math.hypot(startX + kept * alongX - x, startY + kept * alongY - y);
}

/**
 * @param {Position} point
 * @param {Position[][]} rings
 * @returns {boolean} whether the point is inside, by the even-odd rule over all rings
 */
function isInside([x, y], rings) {
  let inside = false;
  for (const ring of rings) {
    for (let index = 1; index < ring.length; index += 1) {
      const [fromX, fromY] = ring[index - 1];
      const [toX, toY] = ring[index];
      if (fromY > y === toY > y) continue;
      if (x < fromX + ((y - fromY) * (toX - fromX)) / (toY - fromY)) inside = !inside;
    }
  }
  return inside;
}

/**
 * @param {Geometry | null} geometry
 * @param {Position} point
 * @returns {number} the distance in millimetres; 0 within a polygon
 */
export function distanceTo(geometry, point) {
  let least = Infinity;
  for (const member of members(geometry)) {
    if (polygons(member).some((rings) => isInside(point, rings))) return 0;
  }
  for (const { positions, kind } of paths(geometry)) {
    positions.forEach((position, index) => {
      const isJoined = kind === "line" || kind === "ring";
      const start = isJoined ? positions[Math.max(0, index - 1)] : position;
      least = Math.min(least, distanceToSegment(point, start, position));
    });
  }
  return least;
}

/**
 * @param {Geometry} geometry
 * @param {(position: Position) => void} act what is done to each position of a copy
 * @returns {Geometry} the copy
 */
function changed(geometry, act) {
  const copy = structuredClone(geometry);
  for (const { positions } of paths(copy)) positions.forEach(act);
  return copy;
}

/**
 * @param {Geometry} geometry
 * @param {number} east
 * @param {number} north
 * @returns {Geometry} the geometry, moved by whole millimetres and kept on the grid
 */
export function moved(geometry, east, north) {
  const box = boxOf(geometry);
  const within = (by, low, high) => Math.max(-MOST - low, Math.min(MOST - high, Math.round(by)));
  const [dx, dy] = [within(east, box.x0, box.x1), within(north, box.y0, box.y1)];
  return changed(geometry, (position) => {
    position[0] += dx;
    position[1] += dy;
  });
}

/**
 * @param {number} x in millimetres, not rounded
 * @param {number} y
 * @returns {Position} the nearest position of the grid
 */
export function onGrid(x, y) {
  const within = (value) => Math.max(-MOST, Math.min(MOST, Math.round(value))) || 0;
  return [within(x), within(y)];
}

/**
 * @param {Position[]} ring
 * @returns {bigint} twice the area, above zero if the ring runs counterclockwise
 */
function doubleArea(ring) {
  let sum = 0n;
  for (let index = 1; index < ring.length; index += 1) {
    const [[fromX, fromY], [toX, toY]] = [ring[index - 1], ring[index]];
    sum += BigInt(fromX) * BigInt(toY) - BigInt(fromY) * BigInt(toX);
  }
  return sum;
}

/**
 * @param {Geometry | null} geometry
 * @returns {Geometry | null} a copy as the server keeps it: exterior rings counterclockwise, holes
 *   not
 */
export function oriented(geometry) {
  if (!geometry) return null;
  const copy = structuredClone(geometry);
  for (const member of members(copy)) {
    for (const rings of polygons(member)) {
      rings.forEach((ring, index) => {
        const area = doubleArea(ring);
        if (index === 0 ? area < 0n : area > 0n) ring.reverse();
      });
    }
  }
  return copy;
}

/**
 * @param {Geometry | null} geometry
 * @returns {Position | null} the middle of the extent, or of a line its middle position
 */
export function middleOf(geometry) {
  const box = boxOf(geometry);
  if (!box) return null;
  const [{ positions, kind }] = paths(geometry);
  if (kind === "line") return positions[Math.floor(positions.length / 2)];
  return kind === "point" ? positions[0] : onGrid((box.x0 + box.x1) / 2, (box.y0 + box.y1) / 2);
}

/**
 * @param {number} millimetres
 * @returns {string} metres with three decimals
 */
export function metres(millimetres) {
  const digits = String(Math.abs(millimetres)).padStart(4, "0");
  return `${millimetres < 0 ? "-" : ""}${digits.slice(0, -3)}.${digits.slice(-3)}`;
}

/**
 * @param {string} text metres with at most three decimals, with a point or a comma
 * @returns {number | null} whole millimetres; null if the text is none of the grid's
 */
export function readMetres(text) {
  const found = /^\s*(-?)(\d{1,7})(?:[.,](\d{0,3}))?\s*$/.exec(text);
  if (!found) return null;
  const [, sign, whole, part = ""] = found;
  const value = Number(whole) * 1000 + Number(part.padEnd(3, "0"));
  return value > MOST ? null : sign && value ? -value : value;
}

const TYPES = {
  Point: say("Point"),
  MultiPoint: say("MultiPoint"),
  LineString: say("LineString"),
  MultiLineString: say("MultiLineString"),
  Polygon: say("Polygon"),
  MultiPolygon: say("MultiPolygon"),
  GeometryCollection: say("GeometryCollection"),
};

/**
 * @param {Geometry | null} geometry
 * @returns {string} what it is, in a few words
 */
export function describe(geometry) {
  if (!geometry) return say("no geometry");
  const parts = paths(geometry);
  const positions = parts.reduce((sum, part) => sum + part.positions.length, 0);
  const holes = members(geometry)
    .flatMap(polygons)
    .reduce((sum, rings) => sum + rings.length - 1, 0);
  const words = [TYPES[geometry.type]];
  if (geometry.type === "GeometryCollection") {
    words.push(say("{count} members", { count: geometry.geometries.length }));
  }
  if (holes > 0) words.push(holes === 1 ? say("1 hole") : say("{count} holes", { count: holes }));
  if (positions > 1) words.push(say("{count} positions", { count: positions }));
  return words.join(", ");
}
