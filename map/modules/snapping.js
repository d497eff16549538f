/**
 * @file What is drawn near a vertex of a feature on the map becomes that vertex. It can be switched
 * off, which this device keeps.
 *
 * @typedef {import("./geometry.js").Position} Position
 * @typedef {import("./geometry.js").Box} Box
 */
import * as L from "../leaflet/leaflet.esm.js";
import { draftStyle, makePane } from "./draw.js";
import { toPlace } from "./layers.js";
import { readSetting, writeSetting } from "./store.js";
import { nearestVertex } from "./vertices.js";

/** How near, in pixels; a finger is wider than a pointer. */
const REACH = matchMedia("(pointer: coarse)").matches ? 18 : 12;
const SETTING = "snapping";

export class Snapping {
  isOn = true;
  /** The name of the feature that is edited: its own vertices do not count. */
  except = "";
  #map;
  #drawn;
  /** @type {L.Path | null} */
  #mark = null;

  /**
   * @param {L.Map} map
   * @param {(around: Box, except: string) => Iterable<import("./geometry.js").Geometry>} drawn the
   *   geometries on the map whose extents meet a box
   */
  constructor(map, drawn) {
    this.#map = map;
    this.#drawn = drawn;
  }

  /** Takes what this device kept. */
  async read() {
    this.isOn = (await readSetting(SETTING)) ?? true;
  }

  /** @param {boolean} isOn from now on */
  async set(isOn) {
    this.isOn = isOn;
    this.clear();
    await writeSetting(SETTING, isOn);
  }

  /**
   * @param {Position} position
   * @returns {Position} the vertex near it, which is marked, or itself
   */
  at(position) {
    this.clear();
    if (!this.isOn) return position;
    const reach = (REACH / this.#map.getZoomScale(this.#map.getZoom(), 0)) * 1000;
    const [x, y] = position;
    const around = { x0: x - reach, y0: y - reach, x1: x + reach, y1: y + reach };
    const vertex = nearestVertex(this.#drawn(around, this.except), position, reach);
    if (vertex) this.#show(vertex);
    return vertex ?? position;
  }

  /** @param {Position} vertex */
  #show(vertex) {
    makePane(this.#map);
    const style = { ...draftStyle(), radius: 10, weight: 2, fill: false };
    this.#mark = L.circleMarker(toPlace(vertex), style).addTo(this.#map);
  }

  /** Takes the mark away. */
  clear() {
    this.#mark?.remove();
    this.#mark = null;
  }
}
