/**
 * @file Features on the map: areas below, lines above them, points on top, and a halo around the
 * one that is chosen, all on one canvas.
 *
 * @typedef {import("./feature.js").Feature} Feature
 * @typedef {import("./geometry.js").Box} Box
 * @typedef {import("./geometry.js").Position} Position
 * @typedef {import("./styling.js").Styles} Styles
 * @typedef {object} Shown
 * @property {string} collection
 * @property {Feature} feature
 * @property {Box | null} box
 * @property {import("./styling.js").PendingEdit | null} pending
 * @property {Styles} styles
 */
import * as L from "../leaflet/leaflet.esm.js";
import { Surface } from "./canvas.js";
import { nameOf } from "./feature.js";
import { boxOf, distanceTo, overlaps } from "./geometry.js";
import { Painter } from "./painting.js";
import { Stamps } from "./stamps.js";
import { Styling, sizesAt } from "./styling.js";
import { outlineOf } from "./tiles.js";

const LEVEL = 410;
/** How far a symbol reaches beyond its position, in pixels. */
const REACH = 16;
/** @type {import("./painting.js").Kind[]} */
const ORDER = ["area", "line", "point"];

/**
 * @param {Position} position
 * @returns {L.LatLng} where Leaflet draws it: north and east in metres
 */
export function toPlace([x, y]) {
  return L.latLng(y / 1000, x / 1000);
}

export class Layers {
  /** @type {Map<string, Shown>} */
  shown = new Map();
  #map;
  #surface;
  #stamps = new Stamps();
  #lookOf;
  #styling;
  /** @type {Feature | null} the one that has the halo */
  #chosen = null;

  /**
   * @param {L.Map} map
   * @param {(collection: string, feature: Feature) => import("./styling.js").Look} lookOf
   */
  constructor(map, lookOf) {
    this.#map = map;
    this.#lookOf = lookOf;
    this.#styling = new Styling(sizesAt(map.getZoom()));
    map.on("zoomend", () => this.#zoomed());
    this.#surface = new Surface(map, "features", LEVEL, (blanks) => this.#paint(blanks));
  }

  /** @param {import("./canvas.js").Blank[]} blanks */
  #paint(blanks) {
    this.#stamps.use(this.#surface.ratio);
    const chosen = this.#chosen && { feature: this.#chosen, styles: this.#styling.halo };
    const haloBox = chosen && boxOf(chosen.feature.geometry);
    const all = this.#visibleIn(outlineOf(blanks.map(({ square }) => square)));
    for (const { square, open } of blanks) {
      const box = this.#boxOf(square);
      const inTile = all.filter((it) => overlaps(it.box, box));
      const halo = haloBox && overlaps(haloBox, box) ? [chosen] : [];
      if (inTile.length + halo.length === 0) continue;
      const painter = new Painter(open(), this.#placing, this.#stamps);
      for (const group of [inTile, halo]) {
        for (const kind of ORDER) {
          for (const it of group) painter.paint(it.feature.geometry, kind, it.styles[kind]);
        }
      }
    }
  }

  /** @returns {import("./painting.js").Placing} where positions are in Leaflet's pixels */
  get #placing() {
    const scale = this.#map.getZoomScale(this.#map.getZoom(), 0) / 1000;
    const { x: east, y: south } = this.#map.getPixelOrigin();
    return { scale, east, south };
  }

  /**
   * @param {import("./tiles.js").Rectangle} rectangle
   * @returns {Box} of the features that may be seen in it
   */
  #boxOf({ left, top, right, bottom }) {
    const { scale, east, south } = this.#placing;
    return {
      x0: (left + east - REACH) / scale,
      x1: (right + east + REACH) / scale,
      y0: -(bottom + south + REACH) / scale,
      y1: -(top + south - REACH) / scale,
    };
  }

  /**
   * @param {import("./tiles.js").Rectangle} rectangle
   * @returns {Shown[]} what may be seen in it
   */
  #visibleIn(rectangle) {
    const box = this.#boxOf(rectangle);
    return [...this.shown.values()].filter((it) => it.box && overlaps(it.box, box));
  }

  /**
   * Has a part of the map painted again.
   * @param {Box | null} box
   */
  #changed(box) {
    if (!box) return;
    const { scale, east, south } = this.#placing;
    this.#surface.paintAgain({
      left: box.x0 * scale - east - REACH,
      right: box.x1 * scale - east + REACH,
      top: -box.y1 * scale - south - REACH,
      bottom: -box.y0 * scale - south + REACH,
    });
  }

  /**
   * Draws a feature, in the place of the one that has its name.
   * @param {string} collection
   * @param {Feature} feature
   * @param {Shown["pending"]} pending
   */
  put(collection, feature, pending) {
    const name = nameOf(collection, feature.id);
    const before = this.shown.get(name);
    const isSame = before?.feature === feature && before.pending?.mark === pending?.mark;
    if (isSame && before.pending?.op === pending?.op) return;
    this.shown.delete(name);
    const styles = this.#styles(collection, feature, pending);
    const box = boxOf(feature.geometry);
    this.shown.set(name, { collection, feature, box, pending, styles });
    this.#changed(box);
    if (before?.feature !== feature) this.#changed(before?.box);
  }

  /** @param {string} name of a feature among all collections */
  remove(name) {
    this.#changed(this.shown.get(name)?.box);
    this.shown.delete(name);
  }

  /**
   * @param {string} collection
   * @param {Feature} feature
   * @param {Shown["pending"]} pending
   * @returns {Styles}
   */
  #styles(collection, feature, pending) {
    return this.#styling.of(this.#lookOf(collection, feature), pending);
  }

  /** @param {() => void} act is called once what changed is painted */
  afterPaint(act) {
    this.#surface.afterPaint(act);
  }

  /** @param {boolean} isGathering whether more features are to come: they are painted together */
  gather(isGathering) {
    this.#surface.gather(isGathering);
  }

  /** @returns {Box} of the view and what is around it */
  get around() {
    return this.#boxOf(this.#surface.around);
  }

  /** Draws all again if the sizes at this zoom are others. */
  #zoomed() {
    const { radius, width } = sizesAt(this.#map.getZoom());
    const { sizes } = this.#styling;
    if (sizes.radius !== radius || sizes.width !== width) this.redraw();
  }

  /** Draws all again: colours or sizes changed. */
  redraw() {
    this.#styling = new Styling(sizesAt(this.#map.getZoom()));
    for (const shown of this.shown.values()) {
      shown.styles = this.#styles(shown.collection, shown.feature, shown.pending);
    }
    this.#surface.paintAgain();
  }

  /**
   * Shows which feature is chosen.
   * @param {Feature | null} feature
   */
  outline(feature) {
    if (feature === this.#chosen) return;
    for (const it of [feature, this.#chosen]) this.#changed(it && boxOf(it.geometry));
    this.#chosen = feature;
  }

  /**
   * @param {Box} around
   * @param {string} except the name of a feature that does not count
   * @returns {Iterable<import("./geometry.js").Geometry>} of the features that may meet the box
   */
  *drawnIn(around, except) {
    for (const [name, { box, feature }] of this.shown) {
      if (box && overlaps(box, around) && name !== except) yield feature.geometry;
    }
  }

  /**
   * @param {Position} point
   * @param {number} reach in millimetres
   * @returns {Shown[]} the features that are near, the nearest first, points and lines before areas
   */
  near(point, reach) {
    const [x, y] = point;
    const around = { x0: x - reach, y0: y - reach, x1: x + reach, y1: y + reach };
    const found = [];
    for (const shown of this.shown.values()) {
      const { box } = shown;
      if (!box || !overlaps(box, around)) continue;
      const distance = distanceTo(shown.feature.geometry, point);
      const size = box.x1 - box.x0 + box.y1 - box.y0;
      if (distance <= reach) found.push({ shown, distance, size });
    }
    const isArea = ({ shown }) => (shown.feature.geometry.type.endsWith("Polygon") ? 1 : 0);
    const order = (one, other) =>
      isArea(one) - isArea(other) || one.distance - other.distance || one.size - other.size;
    found.sort(order);
    return found.map(({ shown }) => shown);
  }
}
