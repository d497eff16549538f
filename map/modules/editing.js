/**
 * @file Edits from the form into the basket, or back into a refused batch.
 *
 * @typedef {import("./basket.js").Edit} Edit
 */
import { editKey, putInBasket } from "./basket.js";
import { changed } from "./channel.js";
import { askBetweenTabs } from "./differences_dialog.js";
import { announce } from "./element.js";
import { nameOf } from "./feature.js";
import { keepLast } from "./last.js";
import { openCollection } from "./opening_dialog.js";
import { changeEdits } from "./queue.js";
import { say } from "./words.js";

export class Editing {
  #state;
  #view;
  #editor;
  #chosen;
  #tabs;

  /**
   * @param {{state: import("./state.js").State, view: import("./view.js").View,
   *   editor: import("./editor.js").Editor, chosen: import("./chosen.js").Chosen,
   *   tabs: import("./tabs.js").Tabs}} parts
   */
  constructor({ state, view, editor, chosen, tabs }) {
    this.#state = state;
    this.#view = view;
    this.#editor = editor;
    this.#chosen = chosen;
    this.#tabs = tabs;
  }

  /** @param {"Point" | "LineString" | "Polygon"} type */
  add(type) {
    if (this.#chosen.isBusy()) return undefined;
    const { collections, switchedOn } = this.#view;
    const { collection } = this.#state.choice;
    const isThere = collections.some(({ id }) => id === collection);
    const first = isThere ? collection : (switchedOn[0] ?? collections[0])?.id;
    if (!first) return this.openCollection();
    this.#editor.begin(type, first, (edit) => this.#take(edit, ""));
    this.#tabs.open("feature");
    return this.#view.map.getContainer().focus();
  }

  /** Asks for a collection to open, which is then offered first. */
  async openCollection() {
    if (this.#chosen.isBusy()) return;
    const id = await openCollection(this.#view.collections.map((it) => it.id));
    if (id !== null) this.#state.set("choice", { collection: id });
  }

  /**
   * @param {string} collection
   * @param {import("./feature.js").Feature} feature
   */
  edit(collection, feature) {
    const { pending } = this.#state.basket;
    const known = editKey(pending.get(nameOf(collection, feature.id))?.edit);
    this.#editor.change(collection, feature, (edit) => this.#take(edit, known));
    this.#view.goTo(feature);
  }

  /**
   * Puts an edit into the basket. If another tab edited the same feature since the form was opened,
   * the user decides.
   * @param {Edit} edit
   * @param {string} known the key of the edit that was pending when the form was opened
   */
  async #take(edit, known) {
    const other = await putInBasket(edit, known);
    const answer = other ? await askBetweenTabs(edit, other) : "this";
    if (answer === null) return;
    if (other && answer === "this") {
      await putInBasket({ ...edit, base: other.feature ?? edit.base });
    }
    if (edit.op === "insert") await keepLast(edit);
    this.#editor.close();
    this.#chosen.set({ collection: edit.collection, id: edit.id });
    announce(say("{id} is in the basket.", { id: edit.id }));
    this.#chosen.show();
    this.#tabs.open("basket");
  }

  /**
   * Changes an edit of a refused batch at its place in the queue.
   * @param {import("./queue.js").Batch} batch
   * @param {number} index
   */
  changeBatch(batch, index) {
    if (this.#chosen.isBusy()) return;
    const edit = batch.edits[index];
    const take = async ({ feature }) => {
      const edits = batch.edits.map((it, at) => (at === index ? { ...edit, feature } : it));
      if (!(await changeEdits(batch, edits))) {
        throw new Error(say("The batch was changed or sent by another tab meanwhile."));
      }
      changed("send");
      this.#editor.close();
      this.#chosen.show();
      this.#tabs.open("queue");
    };
    this.#editor.change(edit.collection, edit.feature, take);
    this.#tabs.open("feature");
    this.#view.goTo(edit.feature);
  }
}
