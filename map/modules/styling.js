/**
 * @file How features are drawn: by the look of their collection or value, by what is still to come
 * of them, and in the sizes of a zoom.
 *
 * @typedef {import("./painting.js").Style} Style
 * @typedef {Record<import("./painting.js").Kind, Style>} Styles how a feature is drawn
 * @typedef {{colour: string, shape: import("./legend.js").SymbolShape}} Look a colour is `#rrggbb`,
 *   or the name of one in the style sheet
 * @typedef {{mark: import("./pending.js").Mark, op: string}} PendingEdit
 * @typedef {{radius: number, width: number}} Sizes of points and lines in pixels
 */
import { colour } from "./colours.js";

const DASHES = { basket: [6, 4], waiting: [2, 5], differs: [10, 4, 2, 4], refused: [] };

/**
 * @param {number} zoom
 * @returns {Sizes}
 */
export function sizesAt(zoom) {
  const large = zoom < 4 ? 5 : 6.5;
  const radius = zoom < 2 ? 3.5 : large;
  const width = zoom < 2.5 ? 2 : 3;
  return { radius: zoom < 0 ? 2.5 : radius, width: zoom < 1 ? 1.25 : width };
}

export class Styling {
  /** @type {Map<string, Styles>} */
  #made = new Map();

  /** @param {Sizes} sizes */
  constructor(sizes) {
    this.sizes = sizes;
  }

  /**
   * @param {Look} look
   * @param {PendingEdit | null} pending
   * @returns {Styles} the same object for the same look and edit
   */
  of(look, pending) {
    const key = `${look.colour} ${look.shape} ${pending?.mark} ${pending?.op}`;
    if (!this.#made.has(key)) this.#made.set(key, this.#make(look, pending));
    return this.#made.get(key);
  }

  /**
   * @param {Look} look
   * @param {PendingEdit | null} pending
   * @returns {Styles}
   */
  #make({ colour: name, shape }, pending) {
    const own = name.startsWith("#") ? name : colour(name);
    const isGone = pending?.op === "delete";
    const fade = isGone ? 0.25 : 1;
    const base = {
      shape,
      radius: this.sizes.radius + (pending ? 1.5 : 0),
      color: pending ? colour(`mark-${pending.mark}`) : own,
      dash: pending ? DASHES[pending.mark] : [],
      opacity: 1,
      fillColor: own,
    };
    const weight = this.sizes.width + (pending ? 1.5 : 0);
    return {
      line: { ...base, weight, opacity: isGone ? 0.7 : 1, fillColor: "", fillOpacity: 0 },
      area: { ...base, weight: pending ? 3 : 1.5, fillOpacity: 0.25 * fade },
      point: {
        ...base,
        color: pending ? base.color : colour("paper"),
        dash: [],
        weight: pending ? 3 : 1.25,
        fillOpacity: fade,
      },
    };
  }

  /** @returns {Styles} of the feature that is chosen */
  get halo() {
    /** @type {Style} */
    const halo = {
      shape: "circle",
      color: colour("chosen"),
      weight: 3,
      opacity: 0.9,
      dash: [],
      radius: this.sizes.radius + 5,
      fillColor: "",
      fillOpacity: 0,
    };
    return {
      line: { ...halo, weight: 9, opacity: 0.45 },
      area: { ...halo, weight: 5 },
      point: halo,
    };
  }
}
