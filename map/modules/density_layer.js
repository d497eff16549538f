/**
 * @file The density of a view that has more features than are drawn: counts of cells, requested
 * from the server one by one while the view rests.
 *
 * @typedef {import("./geometry.js").Box} Box
 * @typedef {{cell: Box, count: number}} Counted
 */
import * as L from "../leaflet/leaflet.esm.js";
import { NoAnswer, Refusal, countMatched } from "./api.js";
import { colour } from "./colours.js";
import { cellsOf, gridOf, shade } from "./density.js";
import { element } from "./element.js";
import { toPlace } from "./layers.js";
import { inDigits } from "./words.js";

const PANE = "density";
const AT_ONCE = 4;
/** The most collections counted; a view sends a request for each of their cells. */
const MOST_COLLECTIONS = 2;

export class DensityLayer {
  #map;
  #renderer;
  /** @type {L.Layer[]} */
  #drawn = [];
  #labels = element("div", { class: "density-labels", "aria-hidden": "true" });
  /** @type {AbortController | null} */
  #asking = null;

  /** @param {L.Map} map */
  constructor(map) {
    this.#map = map;
    const pane = map.createPane(PANE);
    pane.style.zIndex = "405";
    pane.style.pointerEvents = "none";
    this.#renderer = L.canvas({ pane: PANE, padding: 0.1 });
    map.getContainer().append(this.#labels);
    map.on("movestart", () => this.clear());
  }

  /** Takes the cells away, and requests no more. */
  clear() {
    this.#asking?.abort();
    this.#asking = null;
    for (const layer of this.#drawn) layer.remove();
    this.#drawn = [];
    this.#labels.replaceChildren();
  }

  /**
   * Counts the cells of a view, and draws them.
   * @param {{collection: string, look: string}[]} cut the collections of which not all is drawn,
   *   and the names of their colours
   * @param {Box} box
   * @param {string} datetime an interval, or no text
   */
  async show(cut, box, datetime) {
    this.clear();
    const asking = new AbortController();
    this.#asking = asking;
    const { columns, rows } = gridOf(box.x1 - box.x0, box.y1 - box.y0);
    const cells = cellsOf(box, columns, rows);
    try {
      for (const { collection, look } of cut.slice(0, MOST_COLLECTIONS)) {
        const ask = (cell) => countMatched(collection, cell, datetime, asking.signal);
        this.#draw(await counted(cells, ask), look);
      }
    } catch (fault) {
      const isUsual = fault.name === "AbortError" || fault instanceof NoAnswer;
      if (!isUsual && !(fault instanceof Refusal)) throw fault;
    }
  }

  /**
   * @param {Counted[]} all
   * @param {string} look the name of a colour
   */
  #draw(all, look) {
    const most = Math.max(1, ...all.map(({ count }) => count));
    for (const { cell, count } of all.filter((it) => it.count > 0)) {
      const { x0, y0, x1, y1 } = cell;
      const corners = [[x0, y0], [x1, y0], [x1, y1], [x0, y1]].map(toPlace);
      const fill = { fillColor: colour(look), fillOpacity: shade(count, most) };
      const style = { ...fill, renderer: this.#renderer, interactive: false, opacity: 0 };
      this.#drawn.push(L.polygon(corners, style).addTo(this.#map));
      const { x, y } = this.#map.latLngToContainerPoint(toPlace([(x0 + x1) / 2, (y0 + y1) / 2]));
      const label = element("span", {}, inDigits(count));
      [label.style.left, label.style.top] = [`${x}px`, `${y}px`];
      this.#labels.append(label);
    }
  }
}

/**
 * @param {Box[]} cells
 * @param {(cell: Box) => Promise<number>} ask
 * @returns {Promise<Counted[]>}
 */
async function counted(cells, ask) {
  const left = [...cells];
  const found = [];
  const work = async () => {
    for (let cell = left.shift(); cell; cell = left.shift()) {
      found.push({ cell, count: await ask(cell) });
    }
  };
  await Promise.all(Array.from({ length: AT_ONCE }, work));
  return found;
}
