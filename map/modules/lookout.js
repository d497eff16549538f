/**
 * @file The lookout for what others changed. If the server says which state it shows, the page asks
 * whether that is still the one on the map; if it is, nothing else is requested. If it is not, the
 * batches that were accepted since are read, and what they changed is taken into what is kept and
 * shown. Only if that is too much, or the server does not give them, or does not say the state, is
 * the view requested again; in a town that changes all the time, not more than once a minute.
 *
 * @typedef {import("./changes.js").Change} Change
 * @typedef {import("./changes.js").Known} Known
 */
import { NoAnswer, Refusal, readChanges, readCollections } from "./api.js";
import { readNews } from "./changes.js";
import { boxOf, overlaps } from "./geometry.js";
import { keepCollections } from "./seen.js";
import { oldestOf } from "./serials.js";

/** A view of which it is not certain what it has is requested again after this time, in seconds. */
const REQUESTED_AGAIN = 60;
/** What is requested, and where what is said of collections is kept. */
const SERVER = { readChanges, readCollections, keep: keepCollections };

export class Lookout {
  #server;
  #view;
  #seen;
  #areas;
  #onCollections;
  /** @type {number | null} the serial of the state that the collections are of */
  #serial = null;
  /** @type {Known} the state whose last batch is known */
  #known = { serial: 0, key: "" };
  /** Whether the server did not answer at last: what it has may not be known at all. */
  isSilent = false;
  /** Whether the server gives the batches that it accepted, as far as is known. */
  #hasChanges = true;
  /** Whether there are too many of them, until the view is requested as a whole. */
  #isTooMuch = false;
  /** When it was. */
  #requested = 0;

  /**
   * @param {{view: import("./view.js").View, seen: import("./seen.js").Seen,
   *   areas: import("./areas.js").Areas}} parts
   * @param {(before: import("./api.js").Collection[]) => void} onCollections is called when a list
   *   of collections came, with the one before
   * @param {typeof SERVER} [server]
   */
  constructor({ view, seen, areas }, onCollections, server = SERVER) {
    this.#server = server;
    this.#view = view;
    this.#seen = seen;
    this.#areas = areas;
    this.#onCollections = onCollections;
  }

  /** @returns {number | null} the serial of the oldest state that is shown, if all are known */
  get shown() {
    const counts = [...this.#view.counts.values()];
    return oldestOf([this.#serial, ...counts.map(({ serial }) => serial)]);
  }

  /**
   * Shows the state of now.
   * @param {AbortSignal} signal
   * @param {boolean} [canWait] whether a view that has to be requested again may be so later
   */
  async look(signal, canWait = false) {
    try {
      const isAll = await this.#follow(signal);
      const isShown = isAll ? await this.#compare(signal) : !this.#view.isOwed;
      this.isSilent = false;
      const isLate = Date.now() - this.#requested > REQUESTED_AGAIN * 1000;
      if (isShown || (canWait && !isLate && this.shown !== null)) return undefined;
    } catch (fault) {
      if (fault.name === "AbortError") return undefined;
      if (!(fault instanceof NoAnswer) && !(fault instanceof Refusal)) throw fault;
      this.isSilent = true;
    }
    this.#requested = Date.now();
    this.#isTooMuch = false;
    return this.#view.refresh();
  }

  /**
   * Reads the collections, unless they are still of the state that is shown.
   * @param {AbortSignal} signal
   * @returns {Promise<boolean>} whether the view is of the state of now
   */
  async #compare(signal) {
    const { shown } = this;
    const { collections, serial } = await this.#server.readCollections(signal, shown);
    this.#serial = serial;
    if (collections) {
      const before = this.#view.collections;
      await this.#view.setCollections(collections);
      this.#onCollections(before);
      if (collections.length !== before.length) this.#requested = 0;
      await this.#server.keep(collections);
    }
    const counts = [...this.#view.counts.values()];
    const isShown = shown !== null && counts.every((count) => count.serial === serial);
    if (isShown) this.#view.confirm();
    return isShown;
  }

  /**
   * Takes in the batches that were accepted since.
   * @param {AbortSignal} signal
   * @returns {Promise<boolean>} whether all has to be requested again
   */
  async #follow(signal) {
    const { shown } = this;
    if (shown === null || !this.#hasChanges || this.#isTooMuch) return true;
    const key = this.#known.serial === shown ? this.#known.key : "";
    const news = await readNews({ serial: shown, key }, async (...asked) => {
      const answer = await this.#server.readChanges(...asked, { signal });
      if (answer !== "absent") return answer;
      this.#hasChanges = false;
      return null;
    });
    this.#isTooMuch = news === null;
    if (news === null) return true;
    if (news === "same") {
      if (!this.#view.isOwed) this.#view.confirm();
      return false;
    }
    this.#keep(news.changes);
    this.#known = news.known;
    if (news.isOpened) return true;
    this.#serial = news.known.serial;
    this.#view.take(news.changes, news.known.serial);
    return false;
  }

  /**
   * Keeps what was changed of what is known, in view, or taken along.
   * @param {Change[]} changes
   */
  #keep(changes) {
    for (const { collection, id, feature } of changes) {
      const box = feature && boxOf(feature.geometry);
      const isTaken = box !== null && this.#areas.has(collection, box);
      const isInView = box !== null && overlaps(box, this.#view.box);
      if (!feature) this.#seen.drop(collection, [id]).catch(console.error);
      else if (isTaken) this.#seen.put(collection, [feature], true).catch(console.error);
      else if (isInView || this.#seen.find(collection, id)) this.#seen.see(collection, [feature]);
    }
  }
}
