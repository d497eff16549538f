/**
 * @file The labels of features on the map: as many as have room, on a canvas over it.
 *
 * @typedef {{feature: import("./feature.js").Feature, text: string}} Label
 * @typedef {{left: number, top: number, right: number, bottom: number}} Room
 */
import { colour } from "./colours.js";
import { element } from "./element.js";
import { middleOf } from "./geometry.js";
import { toPlace } from "./layers.js";

/** From this zoom on: a metre has 2 pixels. */
const LEAST_ZOOM = 1;
const MOST_LABELS = 400;
const MOST_WIDTHS = 20_000;
const FONT = "500 12px system-ui, 'Segoe UI', Roboto, 'Noto Sans', 'DejaVu Sans', sans-serif";
const HEIGHT = 15;
/** From a point to its label. */
const GAP = 9;

export class Labels {
  #map;
  #read;
  #canvas = element("canvas", { class: "labels", "aria-hidden": "true" });
  #frame = 0;

  /**
   * @param {import("../leaflet/leaflet.esm.js").Map} map
   * @param {() => Iterable<Label>} read the labels of what is shown
   */
  constructor(map, read) {
    this.#map = map;
    this.#read = read;
    map.getContainer().append(this.#canvas);
    map.on("movestart", () => this.#clear());
    map.on("moveend", () => this.redraw());
  }

  #clear() {
    // A canvas without a label takes no memory, and is not cleared again.
    if (this.#canvas.width > 0) this.#canvas.width = 0;
    this.#canvas.dataset.count = "0";
  }

  /** Draws them again with the next frame. */
  redraw() {
    cancelAnimationFrame(this.#frame);
    this.#frame = requestAnimationFrame(() => this.#draw());
  }

  #draw() {
    this.#clear();
    if (this.#map.getZoom() < LEAST_ZOOM) return;
    const { x: width, y: height } = this.#map.getSize();
    /** @type {CanvasRenderingContext2D | null} */
    let context = null;
    const rooms = new Rooms();
    for (const { feature, text } of this.#read()) {
      context ??= this.#open(width, height);
      const room = this.#roomOf(feature, this.#widthOf(context, text));
      if (!room || !isIn(room, width, height) || !rooms.take(room)) continue;
      context.strokeText(text, room.left, room.bottom - 3);
      context.fillText(text, room.left, room.bottom - 3);
      if (rooms.count === MOST_LABELS) break;
    }
    this.#canvas.dataset.count = String(rooms.count);
  }

  /** The widths of texts that were measured, which is slow. */
  #widths = new Map();

  /**
   * @param {CanvasRenderingContext2D} context
   * @param {string} text
   * @returns {number}
   */
  #widthOf(context, text) {
    if (this.#widths.size > MOST_WIDTHS) this.#widths.clear();
    if (!this.#widths.has(text)) this.#widths.set(text, context.measureText(text).width);
    return this.#widths.get(text);
  }

  /**
   * @param {number} width in pixels of the page
   * @param {number} height
   * @returns {CanvasRenderingContext2D}
   */
  #open(width, height) {
    const ratio = devicePixelRatio;
    [this.#canvas.width, this.#canvas.height] = [width * ratio, height * ratio];
    const context = this.#canvas.getContext("2d");
    context.scale(ratio, ratio);
    context.font = FONT;
    context.lineWidth = 3;
    context.lineJoin = "round";
    context.strokeStyle = colour("paper");
    context.fillStyle = colour("text");
    return context;
  }

  /**
   * @param {import("./feature.js").Feature} feature
   * @param {number} width of its label
   * @returns {Room | null} beside a point, and on the middle of all else
   */
  #roomOf({ geometry }, width) {
    const middle = middleOf(geometry);
    if (!middle) return null;
    const { x, y } = this.#map.latLngToContainerPoint(toPlace(middle));
    const left = geometry.type === "Point" ? x + GAP : x - width / 2;
    return { left, top: y - HEIGHT / 2, right: left + width, bottom: y + HEIGHT / 2 };
  }
}

/** The rooms that are taken, by rows: all are as high, so only neighbours can meet. */
class Rooms {
  count = 0;
  /** @type {Map<number, Room[]>} */
  #rows = new Map();

  /**
   * @param {Room} room
   * @returns {boolean} whether it was free, and is taken now
   */
  take(room) {
    const row = Math.floor(room.top / HEIGHT);
    for (const near of [row - 1, row, row + 1]) {
      if (this.#rows.get(near)?.some((other) => meets(room, other))) return false;
    }
    this.#rows.set(row, [...(this.#rows.get(row) ?? []), room]);
    this.count += 1;
    return true;
  }
}

/**
 * @param {Room} room
 * @param {number} width
 * @param {number} height
 */
function isIn({ left, top, right, bottom }, width, height) {
  return right > 0 && left < width && bottom > 0 && top < height;
}

/**
 * @param {Room} one
 * @param {Room} other
 * @returns {boolean} whether they have a place in common
 */
function meets(one, other) {
  return (
    one.left < other.right && other.left < one.right &&
    one.top < other.bottom && other.top < one.bottom
  );
}
