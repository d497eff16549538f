/**
 * @file Geometries painted on a canvas: areas, lines and points, each in the style of its feature.
 * None of them has an object of its own, so a view with thousands is painted within a frame.
 *
 * @typedef {import("./geometry.js").Geometry} Geometry
 * @typedef {import("./geometry.js").Position} Position
 * @typedef {object} Style
 * @property {string} color of the edge
 * @property {number} weight its width in pixels
 * @property {number} opacity of the edge
 * @property {number[]} dash lengths of dashes and gaps in pixels; none for a line without gaps
 * @property {string} fillColor no text if it is not filled
 * @property {number} fillOpacity
 * @property {number} radius of a point in pixels
 * @property {import("./legend.js").SymbolShape} shape of a point
 * @typedef {"area" | "line" | "point"} Kind
 * @typedef {{scale: number, east: number, south: number}} Placing a position x, y lies at
 *   x * scale - east, -y * scale - south, in pixels
 */
import { members } from "./geometry.js";
import { finish, take } from "./stamps.js";

/** Positions of a path that are nearer to the last one than this, in pixels, are left out. */
const NEAR = 0.6;

/**
 * @param {string} type of a geometry that is no collection
 * @returns {Kind}
 */
export function kindOfType(type) {
  if (type.endsWith("Point")) return "point";
  return type.endsWith("LineString") ? "line" : "area";
}

/**
 * @param {CanvasRenderingContext2D} context
 * @param {Position[]} positions
 * @param {Placing} placing
 */
function tracePath(context, positions, { scale, east, south }) {
  let [lastX, lastY] = [Infinity, Infinity];
  const end = positions.length - 1;
  for (let index = 0; index <= end; index += 1) {
    const position = positions[index];
    const [x, y] = [position[0] * scale - east, -position[1] * scale - south];
    if (index === 0) context.moveTo(x, y);
    else if (index < end && Math.abs(x - lastX) < NEAR && Math.abs(y - lastY) < NEAR) continue;
    else context.lineTo(x, y);
    [lastX, lastY] = [x, y];
  }
}

/** Paints geometries of one kind after the other, and sets a style only if it is another. */
export class Painter {
  #context;
  #placing;
  #stamps;
  /** @type {Style | null} */
  #style = null;

  /**
   * @param {CanvasRenderingContext2D} context
   * @param {Placing} placing
   * @param {import("./stamps.js").Stamps} stamps
   */
  constructor(context, placing, stamps) {
    this.#context = context;
    this.#placing = placing;
    this.#stamps = stamps;
    context.lineCap = "round";
    context.lineJoin = "round";
  }

  /**
   * @param {Geometry} geometry
   * @param {Kind} kind of its members that are painted
   * @param {Style} style
   */
  paint(geometry, kind, style) {
    for (const { type, coordinates } of members(geometry)) {
      if (kindOfType(type) !== kind) continue;
      if (type === "Point") this.#point(coordinates, style);
      else if (type === "MultiPoint") for (const at of coordinates) this.#point(at, style);
      else this.#paths(type, coordinates, style);
    }
  }

  /**
   * @param {Position} position
   * @param {Style} style
   */
  #point(position, style) {
    const { scale, east, south } = this.#placing;
    const [x, y] = [position[0] * scale - east, -position[1] * scale - south];
    const { canvas, reach } = this.#stamps.of(style);
    const [left, top] = [Math.round(x) - reach, Math.round(y) - reach];
    this.#context.globalAlpha = 1;
    this.#context.drawImage(canvas, left, top, 2 * reach, 2 * reach);
  }

  /**
   * @param {string} type
   * @param {any} coordinates
   * @param {Style} style
   */
  #paths(type, coordinates, style) {
    const depth = { LineString: 0, MultiLineString: 1, Polygon: 1, MultiPolygon: 2 }[type];
    const isClosed = type.endsWith("Polygon");
    if (style !== this.#style) take(this.#context, style);
    this.#style = style;
    this.#context.beginPath();
    for (const positions of depth === 0 ? [coordinates] : coordinates.flat(depth - 1)) {
      tracePath(this.#context, positions, this.#placing);
      if (isClosed) this.#context.closePath();
    }
    finish(this.#context, style);
  }
}
