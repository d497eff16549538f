/**
 * @file Symbols of points, each drawn once for its style and then copied to wherever it is on the
 * map: a copy is made in a small part of the time of a circle.
 *
 * @typedef {import("./painting.js").Style} Style
 * @typedef {{canvas: HTMLCanvasElement, reach: number}} Stamp and how far it reaches from its
 *   middle, in pixels
 */
import { traceSymbol } from "./symbols.js";

/** How far a symbol reaches, as a part of its radius. */
const FARTHEST = 1.3;

/**
 * Fills and strokes what was traced.
 * @param {CanvasRenderingContext2D} context with the style's colours, width and dashes
 * @param {Style} style
 */
export function finish(context, { fillColor, fillOpacity, opacity }) {
  if (fillColor) {
    context.globalAlpha = fillOpacity;
    context.fill("evenodd");
  }
  context.globalAlpha = opacity;
  context.stroke();
}

/**
 * @param {CanvasRenderingContext2D} context
 * @param {Style} style from now on
 */
export function take(context, style) {
  context.strokeStyle = style.color;
  context.lineWidth = style.weight;
  context.setLineDash(style.dash);
  if (style.fillColor) context.fillStyle = style.fillColor;
}

export class Stamps {
  /** @type {WeakMap<Style, Stamp>} */
  #made = new WeakMap();
  /** The pixels of the screen that a pixel of the page has on each side. */
  #ratio = 1;

  /** @param {number} ratio pixels of the screen in a pixel of the page, on each side */
  use(ratio) {
    if (ratio !== this.#ratio) this.#made = new WeakMap();
    this.#ratio = ratio;
  }

  /**
   * @param {Style} style
   * @returns {Stamp}
   */
  of(style) {
    if (!this.#made.has(style)) this.#made.set(style, this.#make(style));
    return this.#made.get(style);
  }

  /** @param {Style} style */
  #make(style) {
    const reach = Math.ceil(style.radius * FARTHEST + style.weight);
    const canvas = document.createElement("canvas");
    canvas.width = canvas.height = 2 * reach * this.#ratio;
    const context = canvas.getContext("2d");
    context.scale(this.#ratio, this.#ratio);
    context.lineCap = "round";
    context.lineJoin = "round";
    take(context, style);
    context.beginPath();
    traceSymbol(context, style.shape, reach, reach, style.radius);
    finish(context, style);
    return { canvas, reach };
  }
}
