/**
 * @file The shapes of points on the map, and of the swatches that explain them.
 *
 * @typedef {import("./legend.js").SymbolShape} SymbolShape
 */
import { element } from "./element.js";

/** The corners of a shape around the origin, for a circle of radius 1 with about the same area. */
const CORNERS = {
  square: [[-0.9, -0.9], [0.9, -0.9], [0.9, 0.9], [-0.9, 0.9]],
  diamond: [[0, -1.25], [1.25, 0], [0, 1.25], [-1.25, 0]],
  triangle: [[0, -1.3], [1.2, 0.85], [-1.2, 0.85]],
};

/**
 * @param {CanvasRenderingContext2D} context
 * @param {SymbolShape} shape
 * @param {number} x of its middle, in pixels
 * @param {number} y
 * @param {number} radius
 */
export function traceSymbol(context, shape, x, y, radius) {
  if (shape === "circle") return void context.arc(x, y, radius, 0, Math.PI * 2);
  for (const [right, down] of CORNERS[shape]) {
    context.lineTo(x + right * radius, y + down * radius);
  }
  return context.closePath();
}

/**
 * @param {import("./legend.js").SymbolRow} row
 * @param {string} usual the name of the collection's colour
 * @returns {HTMLElement}
 */
export function swatch({ colour, shape }, usual) {
  const isName = colour === null || !colour.startsWith("#");
  const made = element("span", { class: `swatch shape-${shape}` });
  if (isName) made.classList.add(colour ?? usual);
  else made.style.background = colour;
  return made;
}
