/**
 * @file A surface over the map on which this page paints. It consists of square tiles, each a
 * canvas. Leaflet moves them with the map, so a pan paints only what comes into view.
 *
 * @typedef {import("./tiles.js").Rectangle} Rectangle in the pixels of Leaflet's layers
 * @typedef {object} Tile
 * @property {Rectangle} square that it covers
 * @property {HTMLCanvasElement | null} canvas null if nothing is painted there
 * @property {boolean} isStale whether it has to be painted again
 * @typedef {{square: Rectangle, open: () => CanvasRenderingContext2D}} Blank a part that is to be
 *   painted; it is opened only if something is to be seen there, and is empty then
 * @typedef {(blanks: Blank[]) => void} Paint
 */
import * as L from "../leaflet/leaflet.esm.js";
import { grown, meet, squareAt, squaresIn } from "./tiles.js";

/** The side of a tile in pixels. */
const SIDE = 256;
/** How far around the view tiles stay, as a part of its size. */
const AROUND = 0.3;
/** The most milliseconds for which changes are gathered. */
const GATHERED = 100;

export class Surface {
  #map;
  #paint;
  #container;
  /** @type {Map<string, Tile>} by their places */
  #tiles = new Map();
  /** @type {HTMLCanvasElement[]} those of tiles that were let go */
  #free = [];
  /** What the tiles were painted for; they are of no use for another. */
  #origin = { x: 0, y: 0 };
  #zoom = 0;
  /** The pixels of the screen that a pixel of the page has on each side. */
  ratio = 1;
  #frame = 0;
  #timer = 0;
  #isGathering = false;
  /** @type {(() => void)[]} what is called once all is painted */
  #after = [];

  /**
   * @param {L.Map} map
   * @param {string} pane its name; the surface lies in it alone
   * @param {number} level that of the pane
   * @param {Paint} paint
   */
  constructor(map, pane, level, paint) {
    this.#map = map;
    this.#paint = paint;
    const made = map.createPane(pane);
    made.style.zIndex = String(level);
    made.style.pointerEvents = "none";
    this.#container = document.createElement("div");
    this.#container.className = "leaflet-layer leaflet-zoom-animated";
    made.append(this.#container);
    map.on("zoomanim", ({ center, zoom }) => this.#transform(zoom, this.#originAt(center, zoom)));
    map.on("zoom", () => this.#follow());
    map.on("moveend", () => {
      this.#follow();
      this.#paintNext();
    });
    this.paintAgain();
  }

  /** @returns {Rectangle} the view */
  get view() {
    const { x: left, y: top } = this.#map.containerPointToLayerPoint([0, 0]);
    const { x, y } = this.#map.getSize();
    return { left, top, right: left + x, bottom: top + y };
  }

  /** @returns {Rectangle} the view and what is around it that is still painted */
  get around() {
    return grown(this.view, AROUND);
  }

  /** @param {Rectangle} [changed] is painted again with the next frame; without it, all is */
  paintAgain(changed) {
    for (const tile of this.#tiles.values()) {
      if (!changed || meet(tile.square, changed)) tile.isStale = true;
    }
    if (!this.#isGathering) this.#paintNext();
    else this.#timer ||= setTimeout(() => this.#paintNext(), GATHERED);
  }

  /** @param {boolean} isGathering whether more changes are to come: they are painted together */
  gather(isGathering) {
    this.#isGathering = isGathering;
    if (this.#timer && !isGathering) this.#paintNext();
  }

  /** @param {() => void} act is called once what changed is painted */
  afterPaint(act) {
    this.#after.push(act);
    if (!this.#timer) this.#paintNext();
  }

  #paintNext() {
    clearTimeout(this.#timer);
    this.#timer = 0;
    if (this.#frame === 0) this.#frame = requestAnimationFrame(() => this.#draw());
  }

  /**
   * @param {L.LatLng} center of a view to come
   * @param {number} zoom
   * @returns {{x: number, y: number}} the origin of Leaflet's pixels then
   */
  #originAt(center, zoom) {
    const { x, y } = this.#map.project(center, zoom);
    const { left, top, right, bottom } = this.view;
    return { x: Math.round(x - (left + right) / 2), y: Math.round(y - (top + bottom) / 2) };
  }

  /** Moves and scales what is painted to where the map is, until it is painted again. */
  #follow() {
    this.#transform(this.#map.getZoom(), this.#map.getPixelOrigin());
  }

  /**
   * @param {number} zoom
   * @param {{x: number, y: number}} origin of Leaflet's pixels
   */
  #transform(zoom, origin) {
    const scale = this.#map.getZoomScale(zoom, this.#zoom);
    const { x, y } = this.#origin;
    const offset = L.point(x * scale - origin.x, y * scale - origin.y);
    L.DomUtil.setTransform(this.#container, offset, scale);
  }

  /** Lets all tiles go if the pixels are others than those that they were painted for. */
  #renew() {
    const [zoom, origin] = [this.#map.getZoom(), this.#map.getPixelOrigin()];
    const ratio = devicePixelRatio > 1 ? 2 : 1;
    const isOther = origin.x !== this.#origin.x || origin.y !== this.#origin.y;
    if (!isOther && zoom === this.#zoom && ratio === this.ratio) return;
    for (const key of this.#tiles.keys()) this.#remove(key);
    [this.#zoom, this.#origin, this.ratio] = [zoom, origin, ratio];
    this.#transform(zoom, origin);
  }

  #draw() {
    this.#frame = 0;
    this.#renew();
    const { view, around } = this;
    for (const [key, { square }] of this.#tiles) if (!meet(square, around)) this.#remove(key);
    const tiles = squaresIn(view, SIDE).map((place) => this.#tileAt(place));
    const stale = tiles.filter(({ isStale }) => isStale);
    if (stale.length > 0) this.#paintTiles(stale);
    for (const canvas of this.#free.splice(0)) canvas.remove();
    for (const act of this.#after.splice(0)) act();
  }

  /** @param {Tile[]} tiles */
  #paintTiles(tiles) {
    const before = tiles.map((tile) => tile.canvas);
    for (const tile of tiles) [tile.canvas, tile.isStale] = [null, false];
    const blanks = tiles.map((tile, index) => {
      const open = () => this.#opened(tile, before[index]);
      return { square: tile.square, open };
    });
    this.#paint(blanks);
    before.forEach((canvas, index) => {
      if (canvas && tiles[index].canvas === null) this.#free.push(canvas);
    });
  }

  /** @param {string} key of a tile, whose canvas is free for another one */
  #remove(key) {
    const { canvas } = this.#tiles.get(key);
    if (canvas) this.#free.push(canvas);
    this.#tiles.delete(key);
  }

  /**
   * @param {import("./tiles.js").Place} place
   * @returns {Tile} the tile there
   */
  #tileAt(place) {
    const key = `${place.column} ${place.row}`;
    if (!this.#tiles.has(key)) {
      this.#tiles.set(key, { square: squareAt(place, SIDE), canvas: null, isStale: true });
    }
    return this.#tiles.get(key);
  }

  /**
   * @param {Tile} tile
   * @param {HTMLCanvasElement | null} before its own canvas, if it has one
   * @returns {CanvasRenderingContext2D} of its canvas, which is empty
   */
  #opened(tile, before) {
    const { left, top } = tile.square;
    const canvas = before ?? this.#free.pop() ?? document.createElement("canvas");
    const pixels = SIDE * this.ratio;
    if (canvas.width !== pixels) [canvas.width, canvas.height] = [pixels, pixels];
    canvas.style.cssText = `position: absolute; width: ${SIDE}px; height: ${SIDE}px;`;
    [canvas.style.left, canvas.style.top] = [`${left}px`, `${top}px`];
    const context = canvas.getContext("2d");
    context.setTransform(this.ratio, 0, 0, this.ratio, -left * this.ratio, -top * this.ratio);
    context.clearRect(left, top, SIDE, SIDE);
    if (!canvas.parentNode) this.#container.append(canvas);
    tile.canvas = canvas;
    return context;
  }
}
