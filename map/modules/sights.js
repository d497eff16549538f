/**
 * @file The features of a collection that were seen, in memory: by id, by place and by age.
 *
 * @typedef {import("./geometry.js").Box} Box
 * @typedef {object} Sight
 * @property {import("./feature.js").Feature} feature
 * @property {Box | null} box
 * @property {number} seen when the server showed it last
 * @property {boolean} kept whether it lies in an area that was taken along, and does not go
 * @property {number} written as of when it is on the device; 0 if it has to be written
 * @property {number} [place] among all, by age
 */
import { Cells } from "./cells.js";
import { contains } from "./geometry.js";

export class Sights {
  /** @type {Map<string, Sight>} the oldest first */
  #byId = new Map();
  /** @type {Cells<Sight>} those that have an extent */
  #cells = new Cells();
  #last = 0;

  /** @returns {number} how many there are */
  get size() {
    return this.#byId.size;
  }

  /** @returns {IterableIterator<[string, Sight]>} all with their ids, the oldest first */
  [Symbol.iterator]() {
    return this.#byId.entries();
  }

  /** @returns {IterableIterator<Sight>} all, the oldest first */
  values() {
    return this.#byId.values();
  }

  /**
   * @param {string} id
   * @returns {Sight | undefined}
   */
  get(id) {
    return this.#byId.get(id);
  }

  /**
   * Takes a sight in as the newest, in the place of the one of this id.
   * @param {string} id
   * @param {Sight} sight
   */
  set(id, sight) {
    const before = this.#byId.get(id);
    this.#byId.delete(id);
    this.#byId.set(id, sight);
    sight.place = this.#last += 1;
    if (sight === before) return;
    if (before?.box) this.#cells.remove(before);
    if (sight.box) this.#cells.add(sight);
  }

  /**
   * @param {string} id
   * @returns {boolean} whether it was there
   */
  delete(id) {
    const sight = this.#byId.get(id);
    if (sight?.box) this.#cells.remove(sight);
    return this.#byId.delete(id);
  }

  /**
   * @param {Box} box
   * @returns {Sight[]} those whose extents meet the box, the oldest first
   */
  within(box) {
    return this.#cells.within(box).sort((one, other) => one.place - other.place);
  }

  /**
   * @param {Box} box
   * @param {Set<string>} ids
   * @param {number} time
   * @returns {string[]} the ids of those that lie in the box, are not among these, and were not
   *   seen after the time
   */
  missing(box, ids, time) {
    const isMissing = ({ box: own, feature, seen }) =>
      contains(box, own) && !ids.has(feature.id) && seen <= time;
    return this.#cells.within(box).filter(isMissing).map(({ feature }) => feature.id);
  }

  /**
   * @param {number} most that stay, without those that are kept
   * @returns {string[]} the ids of the oldest, which are too many
   */
  surplus(most) {
    if (this.size <= most) return [];
    const looked = [...this].filter(([, { kept }]) => !kept).map(([id]) => id);
    return looked.slice(0, Math.max(0, looked.length - most));
  }
}
