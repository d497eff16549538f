/**
 * @file The features of the view: requested by page, dropped when the view moves on, and taken from
 * what was seen before if the server does not answer.
 *
 * @typedef {import("./geometry.js").Box} Box
 * @typedef {{ids: Set<string>, shown: number, matched: number, oldest: number | null,
 *   isFiltered: boolean, problem: string, serial: number | null}} Count of the features of a
 *   collection; a problem says why it is not of now. The serial is that of the oldest state of its
 *   pages, null if the server does not say it
 */
import { NoAnswer, Refusal, readPages } from "./api.js";
import { boxOf } from "./geometry.js";
import { idle } from "./idle.js";
import { oldestOf } from "./serials.js";

export class Loader {
  /** @type {AbortController | null} */
  #asking = null;
  #seen;
  #draw;

  /**
   * @param {import("./seen.js").Seen} seen
   * @param {(collection: string, features: import("./feature.js").Feature[],
   *   onPainted?: () => void) => void} draw
   */
  constructor(seen, draw) {
    this.#seen = seen;
    this.#draw = draw;
  }

  /** Drops what was requested and has not come. */
  drop() {
    this.#asking?.abort();
    this.#asking = null;
  }

  /**
   * Requests the features of a box from each collection.
   * @param {string[]} collections
   * @param {Box} box
   * @param {string} datetime an interval, or no text
   * @returns {Promise<Map<string, Count> | null>} null if it was dropped
   */
  async load(collections, box, datetime) {
    this.drop();
    const asking = new AbortController();
    this.#asking = asking;
    try {
      const ask = (it) => this.#collection(it, box, datetime, asking.signal);
      const counts = await Promise.all(collections.map(ask));
      return new Map(collections.map((collection, place) => [collection, counts[place]]));
    } catch (fault) {
      if (fault.name === "AbortError") return null;
      throw fault;
    } finally {
      if (this.#asking === asking) this.#asking = null;
    }
  }

  /**
   * @param {string} collection
   * @param {Box} box
   * @param {string} datetime
   * @param {AbortSignal} signal
   * @returns {Promise<Count>}
   */
  async #collection(collection, box, datetime, signal) {
    const [ids, serials] = [new Set(), []];
    let [matched, isWhole] = [0, true];
    try {
      for await (const page of readPages(collection, box, datetime, signal)) {
        const start = performance.now();
        for (const feature of page.features) ids.add(feature.id);
        const drawn = () => performance.measure("page drawn", { start });
        this.#draw(collection, this.#seen.see(collection, page.features), drawn);
        serials.push(page.serial);
        matched = page.numberMatched;
        isWhole = page.next === null;
      }
    } catch (fault) {
      if (fault instanceof Refusal && fault.status === 404) {
        return {
          ids,
          shown: 0,
          matched: 0,
          oldest: null,
          isFiltered: false,
          problem: fault.message,
          serial: null,
        };
      }
      if (!(fault instanceof NoAnswer) && !(fault instanceof Refusal)) throw fault;
      return this.#fromSeen(collection, box, datetime, fault.message);
    }
    const now = Date.now();
    if (isWhole && !datetime) idle.add(() => this.#seen.keepOnly(collection, box, ids, now));
    return {
      ids,
      shown: ids.size,
      matched,
      oldest: null,
      isFiltered: datetime !== "",
      problem: "",
      serial: oldestOf(serials),
    };
  }

  /**
   * @param {string} collection
   * @param {Box} box
   * @param {string} datetime
   * @param {string} problem why no request is sent
   * @returns {Count}
   */
  #fromSeen(collection, box, datetime, problem) {
    const sights = this.#seen.within(collection, box);
    const ids = new Set(sights.map(({ feature }) => feature.id));
    this.#draw(collection, sights.map(({ feature }) => feature));
    const oldest = sights.reduce((least, { seen }) => Math.min(least, seen), Infinity);
    return {
      ids,
      shown: ids.size,
      matched: ids.size,
      oldest: Number.isFinite(oldest) ? oldest : null,
      isFiltered: datetime === "",
      problem,
      serial: null,
    };
  }
}

/**
 * @param {import("./api.js").Collection[]} collections
 * @returns {Box | null} the extent of them all
 */
export function extentOf(collections) {
  const corners = collections.flatMap(({ extent }) =>
    extent ? [[extent.x0, extent.y0], [extent.x1, extent.y1]] : [],
  );
  return boxOf(corners.length ? { type: "MultiPoint", coordinates: corners } : null);
}
