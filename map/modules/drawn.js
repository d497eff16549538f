/**
 * @file Which features are drawn: those of the view, what is kept of its surroundings, and what is
 * still to come, which is drawn in the place of what is there.
 *
 * @typedef {import("./feature.js").Feature} Feature
 * @typedef {import("./geometry.js").Box} Box
 * @typedef {ReadonlyMap<string, import("./pending.js").Pending>} AllPending
 */
import { nameOf } from "./feature.js";
import { boxOf, overlaps } from "./geometry.js";

export class Drawn {
  #layers;
  #seen;
  #state;

  /**
   * @param {import("./layers.js").Layers} layers
   * @param {import("./seen.js").Seen} seen
   * @param {import("./state.js").State} state
   */
  constructor(layers, seen, state) {
    this.#layers = layers;
    this.#seen = seen;
    this.#state = state;
  }

  /**
   * @param {string} collection
   * @returns {boolean} whether it is switched off
   */
  isOff(collection) {
    return this.#state.view.off.includes(collection);
  }

  /**
   * Draws a feature if its collection is switched on.
   * @param {string} collection
   * @param {Feature} feature
   * @param {import("./layers.js").Shown["pending"]} pending
   */
  #put(collection, feature, pending) {
    if (!this.isOff(collection)) this.#layers.put(collection, feature, pending);
  }

  /**
   * @param {string} collection
   * @param {Feature[]} features
   * @param {() => void} [onPainted]
   */
  draw(collection, features, onPainted) {
    const { pending } = this.#state.basket;
    for (const feature of features) {
      if (!pending.has(nameOf(collection, feature.id))) this.#put(collection, feature, null);
    }
    if (onPainted) this.#layers.afterPaint(onPainted);
  }

  /**
   * @param {AllPending} pending
   * @param {AllPending} before
   */
  changePending(pending, before) {
    for (const [name, { edit }] of before) {
      if (pending.has(name)) continue;
      const sight = this.#seen.find(edit.collection, edit.id);
      if (!sight) this.#layers.remove(name);
      else this.#put(edit.collection, sight.feature, null);
    }
    this.drawPending();
  }

  /** Draws the edits that are still to come, wherever they are. */
  drawPending() {
    for (const { edit, mark } of this.#state.basket.pending.values()) {
      this.#put(edit.collection, edit.feature ?? edit.base, { mark, op: edit.op });
    }
  }

  /**
   * Takes away what the view no longer has. Around the view all stays that no filter concerns.
   * @param {Map<string, {ids: Set<string>}>} counts
   * @param {Box} box of the view
   * @param {Box} around it
   */
  keepOnly(counts, box, around) {
    for (const [name, { collection, feature, box: own }] of this.#layers.shown) {
      if (this.#state.basket.pending.has(name) && !this.isOff(collection)) continue;
      const ids = counts.get(collection)?.ids;
      const isAround = ids && own && !overlaps(own, box) && overlaps(own, around);
      if (!ids?.has(feature.id) && !isAround) this.#layers.remove(name);
    }
  }

  /**
   * Draws what others changed, as it was seen.
   * @param {import("./changes.js").Change[]} changes
   */
  take(changes) {
    const { around } = this.#layers;
    for (const { collection, id, feature } of changes) {
      const box = feature && boxOf(feature.geometry);
      const known = this.#seen.find(collection, id)?.feature;
      if (known && box && overlaps(box, around)) this.draw(collection, [known]);
      else if (!this.#state.basket.pending.has(nameOf(collection, id))) {
        this.#layers.remove(nameOf(collection, id));
      }
    }
  }
}
