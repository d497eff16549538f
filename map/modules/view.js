/**
 * @file The map of the grid: Leaflet with metres for degrees, the features of the view, and what is
 * still to come of them.
 *
 * @typedef {import("./api.js").Collection} Collection
 * @typedef {import("./geometry.js").Box} Box
 * @typedef {import("./changes.js").Change} Change
 */
import { shownLimit } from "./api.js";
import { Palette } from "./colours.js";
import { countsAfter, extentsAfter, ofState } from "./counts.js";
import { DensityLayer } from "./density_layer.js";
import { toPosition } from "./draw.js";
import { Drawn } from "./drawn.js";
import { boxOf, overlaps } from "./geometry.js";
import { addGrid, addScale } from "./grid.js";
import { isEqual } from "./json.js";
import { Labels } from "./labels.js";
import { Layers, toPlace } from "./layers.js";
import { makeMap } from "./leaflet_map.js";
import { labelOf, symbolOf } from "./legend.js";
import { Loader, extentOf } from "./loader.js";
import { Resting } from "./resting.js";
import { interval } from "./time.js";

/** Of further moves within this time, in milliseconds, only the last one is requested. */
const PAUSE = 40;

export class View {
  /** @type {Collection[]} */
  collections = [];
  palette = new Palette();
  /** @type {Map<string, import("./legend.js").Legend>} how the office has collections drawn */
  legends = new Map();
  /** @type {Map<string, import("./loader.js").Count>} */
  counts = new Map();
  #loader;
  #seen;
  #state;
  #listener;
  #timer = 0;
  /** When the view moved last. */
  #last = 0;
  #drawGrid;
  #labels;
  #density;
  #resting;
  #drawn;
  /** @type {Box | null} the box whose features were requested last, and came */
  #loaded = null;
  /** Whether it has to be requested again to know what it has. */
  isOwed = false;
  /** As of when the view is, in milliseconds since 1970. */
  asOf = 0;

  /**
   * @param {HTMLElement} container
   * @param {import("./seen.js").Seen} seen
   * @param {import("./state.js").State} state
   * @param {{onCounts: () => void}} listener
   */
  constructor(container, seen, state, listener) {
    this.map = makeMap(container);
    this.#drawGrid = addGrid(this.map);
    addScale(this.map);
    this.layers = new Layers(this.map, (id, feature) => this.#lookOf(id, feature));
    this.#resting = new Resting(this.map, this.layers);
    this.#density = new DensityLayer(this.map);
    this.#labels = new Labels(this.map, () => this.#shownLabels());
    this.#seen = seen;
    this.#drawn = new Drawn(this.layers, seen, state);
    this.#loader = new Loader(seen, (...page) => this.#drawn.draw(...page));
    this.#state = state;
    this.#listener = listener;
    state.on("view", (now, before) => this.#follow(now, before));
    state.on("basket", ({ pending }, before) => {
      this.#drawn.changePending(pending, before.pending);
      this.#labels.redraw();
    });
    this.map.on("moveend", () => this.#moved());
  }

  #moved() {
    this.#resting.asks();
    const { lat: y, lng: x } = this.map.getCenter();
    this.#state.set("view", { x, y, zoom: this.map.getZoom() });
    this.#loader.drop();
    this.#drawSeen();
    clearTimeout(this.#timer);
    const now = performance.now();
    // Requested at once, so that the answer is on its way while what is known is painted.
    if (now - this.#last >= PAUSE) queueMicrotask(() => this.refresh());
    else this.#timer = setTimeout(() => this.refresh(), PAUSE);
    this.#last = now;
  }

  /**
   * Goes where the state says that the view is, and shows what it has switched on.
   * @param {import("./state.js").ViewState} now
   * @param {import("./state.js").ViewState} before
   */
  #follow(now, before) {
    const { lat, lng } = this.map.getCenter();
    const isThere = now.x === lng && now.y === lat && now.zoom === this.map.getZoom();
    const isMoved = ["x", "y", "zoom"].some((name) => now[name] !== before[name]);
    if (isMoved && !isThere) this.map.setView([now.y, now.x], now.zoom, { reset: true });
    if (["off", "from", "to"].some((name) => now[name] !== before[name])) this.refresh();
  }

  /** @returns {string} the interval of the time filter, or no text */
  get #datetime() {
    const { from, to } = this.#state.view;
    return interval(from, to);
  }

  /** @returns {Collection[]} those that are switched on */
  get switchedOn() {
    const { off } = this.#state.view;
    return this.collections.filter(({ id }) => !off.includes(id));
  }

  /** Draws what is known of the view, until the server has answered. A time filter needs it. */
  #drawSeen() {
    if (this.#datetime) return;
    const { box } = this;
    for (const { id } of this.switchedOn) {
      const sights = this.#seen.within(id, box);
      const features = sights.map(({ feature }) => feature);
      if (sights.length <= shownLimit()) this.#drawn.draw(id, features);
    }
  }

  /**
   * @param {string} collection
   * @param {import("./feature.js").Feature} feature
   * @returns {import("./styling.js").Look}
   */
  #lookOf(collection, feature) {
    const row = symbolOf(this.legends.get(collection), feature);
    const colour = row?.colour ?? this.palette.nameOf(collection);
    return { colour, shape: row?.shape ?? "circle" };
  }

  /** @returns {Iterable<import("./labels.js").Label>} the labels of what is drawn */
  *#shownLabels() {
    const { box: view } = this;
    for (const { collection, feature, box } of this.layers.shown.values()) {
      if (!box || !overlaps(box, view)) continue;
      const text = labelOf(this.legends.get(collection), feature);
      if (text) yield { feature, text };
    }
  }

  /** @param {Collection[]} collections those of now */
  async setCollections(collections) {
    await this.palette.add(collections.map(({ id }) => id));
    this.collections = collections;
  }

  /** @returns {Box} the box of the view, in whole millimetres, rounded outward */
  get box() {
    const bounds = this.map.getBounds();
    return {
      x0: Math.floor(bounds.getWest() * 1000),
      y0: Math.floor(bounds.getSouth() * 1000),
      x1: Math.ceil(bounds.getEast() * 1000),
      y1: Math.ceil(bounds.getNorth() * 1000),
    };
  }

  /** Shows all features. */
  showAll() {
    this.show(extentOf(this.collections));
  }

  /**
   * @param {Box | null} box
   */
  show(box) {
    if (!box) return;
    const corners = [toPlace([box.x0, box.y0]), toPlace([box.x1, box.y1])];
    this.map.invalidateSize({ animate: false });
    this.map.fitBounds(corners, { padding: [24, 24], maxZoom: 5, animate: false });
  }

  /** Draws all again, in the colours of now. */
  redraw() {
    this.layers.redraw();
    this.#labels.redraw();
    this.#drawGrid();
  }

  /** Requests the features of the view, and takes away those that are gone. */
  async refresh() {
    const rests = this.#resting.asks();
    const wanted = this.switchedOn.map(({ id }) => id);
    const { box } = this;
    const counts = await this.#loader.load(wanted, box, this.#datetime);
    if (!counts) return;
    this.#drawn.keepOnly(counts, box, this.#datetime ? box : this.layers.around);
    this.asOf = Math.min(...[...counts.values()].map(({ oldest }) => oldest ?? Date.now()));
    if (!Number.isFinite(this.asOf)) this.asOf = Date.now();
    this.#loaded = box;
    this.isOwed = false;
    this.#showCounts(counts);
    this.#showDensity(box);
    rests();
  }

  /** @param {Map<string, import("./loader.js").Count>} counts those of now */
  #showCounts(counts) {
    this.#drawn.drawPending();
    this.#labels.redraw();
    this.counts = counts;
    this.#listener.onCounts();
  }

  /** The server says that nothing has changed since. */
  confirm() {
    this.asOf = Date.now();
  }

  /**
   * Draws what others changed. If it is not certain what the view then has, it has to be requested.
   * @param {Change[]} changes what was seen has them already
   * @param {number} serial of the state that is reached
   */
  take(changes, serial) {
    const own = changes.filter(({ collection }) => !this.#drawn.isOff(collection));
    const { box } = this;
    const isThere = this.#loaded !== null && isEqual(this.#loaded, box);
    const isFiltered = own.length > 0 && this.#datetime !== "";
    const counts = isThere && !isFiltered ? countsAfter(this.counts, box, own, serial) : null;
    this.collections = extentsAfter(this.collections, changes);
    if (!isFiltered) this.#drawn.take(own);
    this.isOwed ||= counts === null;
    if (!this.isOwed) this.confirm();
    this.#showCounts(counts ?? ofState(this.counts, serial));
  }

  /**
   * Shows how many features the view has, if not all of them are drawn.
   * @param {Box} box of the view
   */
  #showDensity(box) {
    const cut = [...this.counts].filter(([, { shown, matched }]) => shown < matched);
    cut.sort(([, one], [, other]) => other.matched - one.matched);
    const looks = cut.map(([id]) => ({ collection: id, look: this.palette.nameOf(id) }));
    if (looks.length > 0) this.#density.show(looks, box, this.#datetime).catch(console.error);
    else this.#density.clear();
  }

  /**
   * @param {import("../leaflet/leaflet.esm.js").LatLng} place
   * @param {number} pixels
   * @returns {import("./layers.js").Shown[]} the features within that number of pixels
   */
  near(place, pixels) {
    const reach = (pixels / this.map.getZoomScale(this.map.getZoom(), 0)) * 1000;
    return this.layers.near(toPosition(place), reach);
  }

  /**
   * @param {import("./feature.js").Feature} feature
   */
  goTo(feature) {
    const box = boxOf(feature.geometry);
    if (!box) return;
    const isSeen = overlaps(box, this.box) && this.map.getZoom() >= 1;
    if (!isSeen) this.show(box);
  }
}
