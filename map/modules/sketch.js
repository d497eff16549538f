/**
 * @file A sketch takes positions one after the other: by pointer, by finger and by keyboard.
 *
 * @typedef {import("./geometry.js").Position} Position
 * @typedef {"point" | "line" | "ring"} SketchKind
 * @typedef {object} Sketched
 * @property {SketchKind} kind
 * @property {Position[]} positions
 * @property {(number | null)[]} accuracies how far each may be off, in metres; null if it was not
 *   measured
 */
import * as L from "../leaflet/leaflet.esm.js";
import { draftStyle, makePane, toPosition } from "./draw.js";
import { isPhone } from "./element.js";
import { toPlace } from "./layers.js";

/**
 * @param {SketchKind} kind
 * @returns {Sketched} without a position
 */
export function newSketch(kind) {
  return { kind, positions: [], accuracies: [] };
}

/** Positions on their way to a point, a line or a ring. */
export class Sketch {
  isStopped = false;
  #map;
  #snapping;
  #line;
  #events;
  #listener;

  /**
   * @param {L.Map} map
   * @param {import("./snapping.js").Snapping} snapping
   * @param {Sketched} sketched what it begins with
   * @param {{onChange: () => void, onPointer: (positions: Position[]) => void,
   *   onDone: (positions: Position[], accuracy: number | null) => void}} listener gets the
   *   positions with the one under the pointer; at last the largest accuracy, if all were measured
   */
  constructor(map, snapping, { kind, positions, accuracies }, listener) {
    makePane(map);
    this.#map = map;
    this.#snapping = snapping;
    this.kind = kind;
    this.positions = [...positions];
    this.accuracies = [...accuracies];
    this.#listener = listener;
    const Line = kind === "ring" ? L.polygon : L.polyline;
    this.#line = Line([], { ...draftStyle(), dashArray: "6 4", fill: kind === "ring" }).addTo(map);
    this.#events = {
      click: ({ latlng }) => this.add(this.#snapping.at(toPosition(latlng))),
      dblclick: () => this.finish(),
      // On a phone the next position is the one under the crosshair.
      ...(isPhone()
        ? { move: () => this.#point(map.getCenter()) }
        : { mousemove: ({ latlng }) => this.#point(latlng) }),
    };
    map.on(this.#events);
    map.doubleClickZoom.disable();
    map.getContainer().classList.add("sketching");
    this.#draw(this.positions);
  }

  /** @returns {number} how many positions are needed */
  get least() {
    return { point: 1, line: 2, ring: 3 }[this.kind];
  }

  /** @returns {boolean} whether it can be finished */
  get isEnough() {
    return this.positions.length >= this.least;
  }

  /**
   * @param {Position} position
   * @param {number | null} [accuracy] in metres; null if it was not measured
   */
  add(position, accuracy = null) {
    const last = this.positions.at(-1);
    if (last && last[0] === position[0] && last[1] === position[1]) return undefined;
    this.positions.push(position);
    this.accuracies.push(accuracy);
    if (this.kind === "point") return this.finish();
    this.#draw(this.positions);
    return this.#listener.onChange();
  }

  /** Adds the middle of the view: so by the keyboard, and under the crosshair. */
  addMiddle() {
    this.add(this.#snapping.at(toPosition(this.#map.getCenter())));
  }

  finish() {
    if (!this.isEnough) return;
    this.stop();
    const [first] = this.positions;
    const positions = this.kind === "ring" ? [...this.positions, [...first]] : this.positions;
    const isMeasured = !this.accuracies.includes(null);
    this.#listener.onDone(positions, isMeasured ? Math.max(...this.accuracies) : null);
  }

  stop() {
    this.isStopped = true;
    this.#line.remove();
    this.#snapping.clear();
    this.#map.off(this.#events);
    this.#map.doubleClickZoom.enable();
    this.#map.getContainer().classList.remove("sketching");
  }

  /** @param {L.LatLng} place where the next position would be */
  #point(place) {
    const positions = [...this.positions, this.#snapping.at(toPosition(place))];
    this.#draw(positions);
    this.#listener.onPointer(positions);
  }

  /** @param {Position[]} positions */
  #draw(positions) {
    this.#line.setLatLngs(this.positions.length ? positions.map(toPlace) : []);
  }
}
