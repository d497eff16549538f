/**
 * @file What is still to come: read from the device into the state, and shown in its panels and
 * counts.
 */
import { showBasket } from "./basket_panel.js";
import { byId } from "./element.js";
import { writeJson } from "./json.js";
import { readPending } from "./pending.js";
import { queueText } from "./queue_panel.js";

export class Waiting {
  #state;
  #seen;
  #queuePanel;
  #onSelect;
  #showing = Promise.resolve();
  /** @type {Promise<void> | null} */
  #next = null;
  #shownTexts = new Map();

  /**
   * @param {{state: import("./state.js").State, seen: import("./seen.js").Seen,
   *   queuePanel: import("./queue_panel.js").QueuePanel}} parts
   * @param {(collection: string, id: string) => void} onSelect
   */
  constructor({ state, seen, queuePanel }, onSelect) {
    this.#state = state;
    this.#seen = seen;
    this.#queuePanel = queuePanel;
    this.#onSelect = onSelect;
  }

  /**
   * Shows the basket, the queue and what is still to come on the map. One showing ends before the
   * next one reads, so that none puts older lists over newer ones.
   * @returns {Promise<void>}
   */
  show() {
    this.#next ??= this.#showing.catch(() => {}).then(() => {
      this.#next = null;
      this.#showing = this.#showNow();
      return this.#showing;
    });
    return this.#next;
  }

  async #showNow() {
    const { pending, basket, queue, steps } = await readPending();
    // What was accepted meanwhile is no longer pending, and is what was last seen.
    await this.#seen.catchUp();
    this.#state.set("basket", { edits: basket, queue, pending, ...steps });
    const options = { onSelect: this.#onSelect, canSave: isSecureContext, ...steps };
    const isNew = this.#isNew("basket", [steps, ...basket]);
    if (isNew) showBasket(byId("panel-basket"), basket, options);
    if (this.#isNew("queue", queue)) await this.#queuePanel.show(queue);
    const { text, isProblem } = queueText(queue);
    const shown = byId("queue-state");
    if (shown.textContent !== text) shown.textContent = text;
    shown.classList.toggle("problem", isProblem);
    byId("basket-count").textContent = basket.length ? String(basket.length) : "";
    byId("queue-count").textContent = queue.length ? String(queue.length) : "";
  }

  /**
   * @param {string} name of a list
   * @param {object[]} list
   * @returns {boolean} whether it is another than the one that was shown
   */
  #isNew(name, list) {
    const text = writeJson(list);
    const isNew = this.#shownTexts.get(name) !== text;
    this.#shownTexts.set(name, text);
    return isNew;
  }
}
