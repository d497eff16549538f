/**
 * @file The state of the page: one small store with events. Where the map is, what is chosen, the
 * form and what waits are here and nowhere else. A part of the page listens to what it shows, and
 * sets what its user changed; no part reads it from another or from the document.
 *
 * @typedef {{collection: string, id: string}} Name
 * @typedef {object} ViewState
 * @property {number} x the middle in metres
 * @property {number} y
 * @property {number} zoom a metre is 2^zoom pixels
 * @property {boolean} isPlaced whether it was chosen; until then it is only where the map begins
 * @property {readonly string[]} off the collections that are switched off
 * @property {string} from the first day of the filter; no text without one
 * @property {string} to the last one
 * @typedef {object} ChoiceState
 * @property {Name | null} name of the feature that is chosen
 * @property {readonly Name[]} others features at the same place
 * @property {string | null} collection the one that was worked on last
 * @typedef {object} FormState
 * @property {boolean} isOpen
 * @property {boolean} isTyped whether something was typed into it
 * @property {import("./geometry_form.js").Draft} draft what is drawn
 * @property {import("./history.js").History<import("./geometry_form.js").Draft>} history its steps
 * @typedef {object} BasketState what is still to come
 * @property {readonly import("./basket.js").Edit[]} edits those of the basket
 * @property {readonly import("./queue.js").Batch[]} queue
 * @property {ReadonlyMap<string, import("./pending.js").Pending>} pending the last edit of each
 *   feature, by its name among all collections
 * @property {boolean} canUndo whether the basket has a step to take back
 * @property {boolean} canRedo
 * @typedef {{view: ViewState, choice: ChoiceState, form: FormState, basket: BasketState}} Parts
 */
import { emptyHistory } from "./history.js";

/** @returns {FormState} of no form */
export function closedForm() {
  const draft = { geometry: null, accuracy: null, sketch: null };
  return { isOpen: false, isTyped: false, draft, history: emptyHistory() };
}

/** @returns {Parts} the state before anything is known */
function beginning() {
  return {
    view: { x: 0, y: 0, zoom: 0, isPlaced: false, off: [], from: "", to: "" },
    choice: { name: null, others: [], collection: null },
    form: closedForm(),
    basket: { edits: [], queue: [], pending: new Map(), canUndo: false, canRedo: false },
  };
}

export class State {
  #parts = beginning();
  /** @type {Map<keyof Parts, ((now: any, before: any) => void)[]>} */
  #listeners = new Map();
  /** @type {(() => void)[]} what listeners still have to hear, the first change first */
  #untold = [];
  #isTelling = false;

  /** @returns {Readonly<ViewState>} */
  get view() {
    return this.#parts.view;
  }

  /** @returns {Readonly<ChoiceState>} */
  get choice() {
    return this.#parts.choice;
  }

  /** @returns {Readonly<FormState>} */
  get form() {
    return this.#parts.form;
  }

  /** @returns {Readonly<BasketState>} */
  get basket() {
    return this.#parts.basket;
  }

  /** @returns {boolean} whether something would be lost if the form were closed */
  get isFormBegun() {
    const { isOpen, isTyped, draft } = this.form;
    const isEmpty = !draft.geometry && draft.sketch?.positions.length === 0;
    return isOpen && (isTyped || !isEmpty);
  }

  /**
   * Changes a part of the state, and notifies those who listen to it. If they change something too,
   * that is notified after this.
   * @template {keyof Parts} Name
   * @param {Name} name
   * @param {Partial<Parts[Name]>} changes
   */
  set(name, changes) {
    const before = this.#parts[name];
    const isNew = Object.keys(changes).some((key) => !Object.is(before[key], changes[key]));
    if (!isNew) return;
    const now = Object.freeze({ ...before, ...changes });
    this.#parts = { ...this.#parts, [name]: now };
    for (const listener of this.#listeners.get(name) ?? []) {
      this.#untold.push(() => listener(now, before));
    }
    this.#tell();
  }

  #tell() {
    if (this.#isTelling) return;
    this.#isTelling = true;
    try {
      for (let next = this.#untold.shift(); next; next = this.#untold.shift()) next();
    } finally {
      this.#isTelling = false;
    }
  }

  /**
   * @template {keyof Parts} Name
   * @param {Name} name
   * @param {(now: Parts[Name], before: Parts[Name]) => void} listener is called after each change
   */
  on(name, listener) {
    this.#listeners.set(name, [...(this.#listeners.get(name) ?? []), listener]);
  }
}
