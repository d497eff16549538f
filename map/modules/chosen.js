/**
 * @file The feature that is chosen: found, outlined on the map, and shown in the panel.
 *
 * @typedef {import("./feature.js").Feature} Feature
 * @typedef {{collection: string, id: string}} Name
 */
import { NoAnswer, Refusal, readFeature } from "./api.js";
import { putInBasket, takeOutOfBasket } from "./basket.js";
import { announce, byId, element } from "./element.js";
import { nameOf } from "./feature.js";
import { showFeature } from "./feature_panel.js";
import { pendingFeatures } from "./pending.js";
import { searched } from "./search.js";
import { say } from "./words.js";

/** How many features a search finds on this device. */
const MOST_FOUND = 50;

export class Chosen {
  #state;
  #seen;
  #view;
  #editor;
  #tabs;
  /** @type {Feature | null} as the panel shows it */
  #shown = null;
  #ground;
  #listener;

  /**
   * @param {{state: import("./state.js").State, seen: import("./seen.js").Seen,
   *   view: import("./view.js").View, editor: import("./editor.js").Editor,
   *   tabs: import("./tabs.js").Tabs, ground: import("./ground.js").Ground}} parts
   * @param {{onEdit: (collection: string, feature: Feature) => void}} listener
   */
  constructor({ state, seen, view, editor, tabs, ground }, listener) {
    this.#state = state;
    this.#seen = seen;
    this.#view = view;
    this.#editor = editor;
    this.#tabs = tabs;
    this.#ground = ground;
    this.#listener = listener;
    state.on("choice", () => this.outline());
    state.on("form", ({ isOpen }, before) => isOpen === before.isOpen || this.outline());
    state.on("view", ({ off }, before) => off === before.off || this.outline());
    state.on("basket", () => {
      if (!state.form.isOpen && state.choice.name) this.show();
    });
  }

  /** @returns {boolean} whether an edit is under way, which has to be ended first */
  isBusy() {
    if (!this.#state.isFormBegun) return false;
    this.#tabs.open("feature");
    announce(say("Put the edit in the basket first, or cancel it."));
    return true;
  }

  /**
   * Shows a feature.
   * @param {string} collection
   * @param {string} id
   * @param {boolean} isFar whether the map goes there
   * @param {Name[]} [others] features at the same place
   */
  async choose(collection, id, isFar, others = []) {
    if (this.isBusy()) return;
    this.#editor.close();
    this.set({ collection, id }, others);
    const feature = await this.#find(collection, id);
    if (!feature) return void this.leave(say("{id} is not there.", { id }));
    this.show();
    this.#tabs.open("feature");
    if (isFar) this.#view.goTo(feature);
  }

  /**
   * @param {Name | null} name of the feature that is chosen from now on
   * @param {Name[]} [others] features at the same place
   */
  set(name, others = []) {
    const { collection } = name ?? this.#state.choice;
    this.#state.set("choice", { name, others, collection });
  }

  /**
   * Searches ids and properties of what is kept on this device, and ids with the server.
   * @param {string} text
   * @param {(found: import("./search.js").Found[]) => void} onFound gets what is kept here. A
   *   feature whose id is the text is shown at once.
   */
  async search(text, onFound) {
    if (this.isBusy()) return undefined;
    const kept = searched(this.#candidates(), text, MOST_FOUND);
    onFound(kept);
    const id = text.trim();
    const ids = this.#view.collections.map((collection) => collection.id);
    const found = await Promise.all(
      ids.map(async (collection) => ((await this.#find(collection, id)) ? collection : null)),
    );
    const collection = found.find((it) => it !== null);
    if (!collection && kept.length === 1) return this.choose(kept[0].collection, kept[0].id, true);
    if (!collection && kept.length > 1) return undefined;
    if (!collection) return announce(say("There is no feature with the id {id}.", { id }));
    return this.choose(collection, id, true);
  }

  /** @returns {Iterable<import("./search.js").Candidate>} each feature that is kept here, once */
  *#candidates() {
    const { pending } = this.#state.basket;
    yield* pendingFeatures(pending);
    for (const candidate of this.#seen.all()) {
      if (!pending.has(nameOf(candidate.collection, candidate.feature.id))) yield candidate;
    }
  }

  /**
   * @param {string} collection
   * @param {string} id
   * @returns {Promise<Feature | null>} as it is to be, or was last seen, or is
   */
  async #find(collection, id) {
    const known = this.#known(collection, id);
    if (known) return known;
    try {
      const { feature } = await readFeature(collection, id);
      if (feature) await this.#seen.put(collection, [feature]);
      return feature;
    } catch (fault) {
      if (fault instanceof NoAnswer || fault instanceof Refusal) return null;
      throw fault;
    }
  }

  /**
   * @param {string} collection
   * @param {string} id
   * @returns {Feature | null}
   */
  #known(collection, id) {
    const pending = this.#state.basket.pending.get(nameOf(collection, id))?.edit;
    if (pending) return pending.feature ?? pending.base;
    return this.#seen.find(collection, id)?.feature ?? null;
  }

  /** @param {string} [text] what the panel says while no feature is chosen */
  leave(text = say("Press a feature on the map to see what is known of it.")) {
    this.set(null);
    byId("panel-feature").replaceChildren(element("p", { class: "note" }, text));
    this.outline();
  }

  /** Shows on the map which feature is chosen. */
  outline() {
    const { choice, form, view } = this.#state;
    const { collection, id } = choice.name ?? {};
    const isShown = choice.name && !view.off.includes(collection) && !form.isOpen;
    this.#view.layers.outline(isShown ? this.#known(collection, id) : null);
  }

  /** Shows the feature again if another is known of it now, unless a form is open. */
  renew() {
    const { choice, form } = this.#state;
    const { collection, id } = choice.name ?? {};
    const known = choice.name && this.#known(collection, id);
    if (!choice.name || !this.#shown || form.isOpen || known === this.#shown) this.outline();
    else if (known) this.show();
    else this.leave(say("{id} is not there.", { id }));
  }

  /** Shows the feature as it is now, unless an edit is under way. */
  show() {
    if (this.#state.isFormBegun) return;
    const { name, others } = this.#state.choice;
    const { collection, id } = name ?? {};
    const feature = name && this.#known(collection, id);
    this.#shown = feature;
    if (!feature) return void this.leave();
    const title = this.#view.collections.find((it) => it.id === collection)?.title ?? collection;
    const shown = {
      title,
      colour: this.#view.palette.nameOf(collection),
      collection,
      feature,
      pending: this.#state.basket.pending.get(nameOf(collection, id)),
      seen: this.#seen.find(collection, id)?.seen,
      beside: (position) => this.#ground.beside(position),
      others,
    };
    showFeature(byId("panel-feature"), shown, {
      onEdit: () => this.#listener.onEdit(collection, feature),
      onDelete: () => putInBasket({ op: "delete", collection, id, feature: null, base: feature }),
      onTakeOut: () => takeOutOfBasket({ collection, id }),
      onGo: () => this.#view.goTo(feature),
      onSelect: (other, otherId) => this.choose(other, otherId, false),
    });
    this.outline();
  }
}
