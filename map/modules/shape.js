/**
 * @file A shape's positions are moved: by pointer, by finger and by keyboard, in whole millimetres.
 *
 * @typedef {import("./geometry.js").Geometry} Geometry
 * @typedef {import("./geometry.js").Position} Position
 */
import * as L from "../leaflet/leaflet.esm.js";
import { draftStyle, makePane, toPosition } from "./draw.js";
import { boxOf, moved, onGrid, paths } from "./geometry.js";
import { toPlace } from "./layers.js";
import { say } from "./words.js";

/** How many handles are shown at most. */
const MOST_HANDLES = 200;
const ARROWS = { ArrowLeft: [-1, 0], ArrowRight: [1, 0], ArrowUp: [0, 1], ArrowDown: [0, -1] };

/** A geometry whose positions are moved. It changes its own copy. */
export class Shape {
  /** The distance that arrow keys move, in millimetres. */
  step = 100;
  #map;
  #snapping;
  #isFixed;
  #onChange;
  #onDrag;
  #drawn = [];
  #handles = [];
  #redraw = () => this.#draw();
  #onHandles;

  /**
   * @param {L.Map} map
   * @param {import("./snapping.js").Snapping} snapping
   * @param {Geometry} geometry
   * @param {boolean} isFixed whether it is only shown
   * @param {{onChange: () => void, onDrag: (geometry: Geometry) => void,
   *   onHandles: (inView: number, shown: number) => void}} listener
   */
  constructor(map, snapping, geometry, isFixed, { onChange, onDrag, onHandles }) {
    makePane(map);
    this.#map = map;
    this.#snapping = snapping;
    this.#isFixed = isFixed;
    this.geometry = structuredClone(geometry);
    this.#onChange = onChange;
    this.#onDrag = onDrag;
    this.#onHandles = onHandles;
    map.on("moveend", this.#redraw);
    this.#draw();
  }

  stop() {
    this.#map.off("moveend", this.#redraw);
    this.#snapping.clear();
    this.#clear();
  }

  #clear() {
    for (const layer of [...this.#drawn, ...this.#handles]) layer.remove();
    [this.#drawn, this.#handles] = [[], []];
  }

  /**
   * Sets a position, and of a ring's first its last too.
   * @param {import("./geometry.js").Path} path
   * @param {number} index
   * @param {Position} position
   */
  set({ positions, kind }, index, [x, y]) {
    const last = positions.length - 1;
    const both = kind === "ring" && (index === 0 || index === last) ? [0, last] : [index];
    for (const each of both) [positions[each][0], positions[each][1]] = [x, y];
  }

  /**
   * @param {import("./geometry.js").Path} path
   * @param {number} index the position after which one is put in
   * @param {Position} position
   */
  insert({ positions }, index, position) {
    positions.splice(index + 1, 0, position);
    this.changed();
  }

  /**
   * @param {import("./geometry.js").Path} path
   * @param {number} index
   */
  remove({ positions, kind, least }, index) {
    if (positions.length <= least) return;
    positions.splice(index, 1);
    if (kind === "ring" && index === 0) positions[positions.length - 1] = [...positions[0]];
    this.changed();
  }

  /**
   * @param {number} east in millimetres
   * @param {number} north
   */
  move(east, north) {
    this.geometry = moved(this.geometry, east, north);
    this.changed();
  }

  /** Draws again and reports it. */
  changed() {
    this.#draw();
    this.#onChange();
  }

  #draw() {
    this.#clear();
    this.#outline();
    if (this.#isFixed) return;
    const bounds = this.#map.getBounds().pad(0.1);
    const all = paths(this.geometry).flatMap((path) =>
      path.positions.map((position, index) => ({ path, index, position })),
    );
    const isClosing = ({ path: { kind, positions }, index }) =>
      kind === "ring" && index === positions.length - 1;
    const near = all.filter((it) => !isClosing(it) && bounds.contains(toPlace(it.position)));
    const shown = near.length <= MOST_HANDLES ? near : [];
    for (const it of shown) this.#vertex(it.path, it.index);
    for (const it of shown) this.#between(it.path, it.index);
    this.#onHandles(near.length, shown.length);
    if (all.length > 1) this.#whole();
  }

  #outline() {
    for (const layer of this.#drawn) layer.remove();
    this.#drawn = paths(this.geometry).flatMap(({ positions, kind }) => {
      const places = positions.map(toPlace);
      const style = draftStyle();
      if (kind === "line") return [L.polyline(places, { ...style, fill: false }).addTo(this.#map)];
      if (kind === "ring") return [L.polygon(places, style).addTo(this.#map)];
      return [];
    });
  }

  /**
   * @param {L.LatLng} place
   * @param {string} kind names the class of the handle
   * @param {string} text what it is for those who hear it
   * @param {{onDrag: (position: Position) => void, onKey: (event: KeyboardEvent) => boolean,
   *   isSnapped?: boolean}} listener
   * @returns {L.Marker}
   */
  #handle(place, kind, text, { onDrag, onKey, isSnapped = true }) {
    const icon = L.divIcon({ className: `handle ${kind}`, iconSize: null });
    const marker = L.marker(
      place,
      { icon, draggable: true, keyboard: true, autoPan: false },
    ).addTo(this.#map);
    const shown = marker.getElement();
    shown.setAttribute("role", "button");
    shown.setAttribute("aria-label", text);
    marker.on("drag", () => {
      const dragged = toPosition(marker.getLatLng());
      const position = isSnapped ? this.#snapping.at(dragged) : dragged;
      if (position !== dragged) marker.setLatLng(toPlace(position));
      onDrag(position);
      this.#outline();
      this.#onDrag(this.geometry);
    });
    marker.on("dragend", () => {
      this.#snapping.clear();
      this.changed();
    });
    shown.addEventListener("keydown", (event) => {
      if (!onKey(event)) return;
      event.preventDefault();
      event.stopPropagation();
    });
    this.#handles.push(marker);
    return marker;
  }

  /**
   * @param {KeyboardEvent} event
   * @returns {number[] | null} how far an arrow key moves, in millimetres
   */
  #byArrow({ key, shiftKey }) {
    const step = this.step * (shiftKey ? 10 : 1);
    return ARROWS[key]?.map((way) => way * step) ?? null;
  }

  #vertex(path, index) {
    const position = path.positions[index];
    const text = say(
      "Position {number}: arrow keys move it, Delete removes it",
      { number: index + 1 },
    );
    const marker = this.#handle(toPlace(position), "vertex", text, {
      onDrag: (dragged) => this.set(path, index, dragged),
      onKey: (event) => {
        const by = this.#byArrow(event);
        if (event.key === "Delete") this.remove(path, index);
        if (!by) return event.key === "Delete";
        this.set(path, index, onGrid(position[0] + by[0], position[1] + by[1]));
        marker.setLatLng(toPlace(position));
        this.#outline();
        this.#onChange();
        return true;
      },
    });
  }

  #between(path, index) {
    const [from, to] = [path.positions[index], path.positions[index + 1]];
    if (!to || path.kind === "points" || path.kind === "point") return;
    const middle = onGrid((from[0] + to[0]) / 2, (from[1] + to[1]) / 2);
    let isIn = false;
    this.#handle(toPlace(middle), "between", say(
      "Add a position after position {number}",
      { number: index + 1 },
    ), {
      onDrag: (dragged) => {
        if (!isIn) path.positions.splice(index + 1, 0, [...dragged]);
        isIn = true;
        this.set(path, index + 1, dragged);
      },
      onKey: ({ key }) => {
        if (key === "Enter" || key === " ") this.insert(path, index, middle);
        return key === "Enter" || key === " ";
      },
    });
  }

  #whole() {
    const box = boxOf(this.geometry);
    const start = onGrid((box.x0 + box.x1) / 2, box.y1);
    const original = this.geometry;
    const marker = this.#handle(toPlace(start), "whole", say(
      "The whole feature: arrow keys move it",
    ), {
      isSnapped: false,
      onDrag: ([x, y]) => (this.geometry = moved(original, x - start[0], y - start[1])),
      onKey: (event) => {
        const by = this.#byArrow(event);
        if (!by) return false;
        this.move(by[0], by[1]);
        this.#handles.at(-1).getElement().focus();
        return true;
      },
    });
    marker.setZIndexOffset(-1000);
  }
}
