/**
 * @file An image of one's own below the features: by the address of an image of this origin, or a
 * file of this device, and the two corners that it lies between. Images of other origins are not
 * requested.
 *
 * @typedef {{url: string, file: Blob | null, box: import("./geometry.js").Box}} Background
 */
import * as L from "../leaflet/leaflet.esm.js";
import { toPlace } from "./layers.js";
import { say } from "./words.js";

export class BackgroundImage {
  #map;
  /** @type {L.Layer | null} */
  #layer = null;
  #made = "";

  /** @param {L.Map} map */
  constructor(map) {
    this.#map = map;
    map.createPane("background").style.zIndex = "250";
  }

  /**
   * @param {Background | null} background
   * @param {(text: string) => void} onProblem
   */
  show(background, onProblem) {
    this.#layer?.remove();
    if (this.#made) URL.revokeObjectURL(this.#made);
    [this.#layer, this.#made] = [null, ""];
    if (!background) return;
    const { file, box } = background;
    if (file) this.#made = URL.createObjectURL(file);
    const corners = [toPlace([box.x0, box.y0]), toPlace([box.x1, box.y1])];
    const options = { pane: "background", opacity: 0.75, alt: "" };
    this.#layer = L.imageOverlay(this.#made || background.url, corners, options);
    this.#layer.on("error", () => onProblem(say("The image cannot be shown.")));
    this.#layer.addTo(this.#map);
  }
}

/**
 * @param {string} text
 * @returns {string | null} the address of an image of this origin; null for any other
 */
export function ownAddress(text) {
  try {
    const url = new URL(text, location.href);
    return url.origin === location.origin ? url.href : null;
  } catch {
    return null;
  }
}
