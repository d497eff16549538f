/**
 * @file The form that makes an edit: the collection, the id, the properties and the geometry.
 *
 * @typedef {import("./feature.js").Feature} Feature
 * @typedef {import("./basket.js").Edit} Edit
 * @typedef {import("./geometry.js").Geometry} Geometry
 * @typedef {import("./geometry_form.js").Drawn} Drawn
 * @typedef {import("./properties_form.js").Description} Description
 */
import { announce, button, element, isPhone } from "./element.js";
import { isId, isSame, nameOf } from "./feature.js";
import { GeometryForm } from "./geometry_form.js";
import { readLast } from "./last.js";
import { PropertiesForm } from "./properties_form.js";
import { closedForm } from "./state.js";
import { say } from "./words.js";

/** @type {Record<Drawn, string>} */
const TITLES = {
  Point: say("New point"),
  LineString: say("New line"),
  Polygon: say("New polygon"),
};

export class Editor {
  #view;
  #tools;
  #panel;
  #describe;
  #onCancel;
  /** @type {GeometryForm | null} */
  #geometry = null;
  /** @type {PropertiesForm | null} */
  #properties = null;
  #problem = element("p", { class: "problem", role: "alert" });
  #state;

  /**
   * @param {import("./state.js").State} state
   * @param {import("./view.js").View} view
   * @param {{ground: import("./ground.js").Ground, snapping: import("./snapping.js").Snapping,
   *   bar: import("./drawing_bar.js").DrawingBar}} tools
   * @param {HTMLElement} panel where the form is shown
   * @param {{describe: (collection: string) => Description, onCancel: () => void}} listener
   */
  constructor(state, view, tools, panel, { describe, onCancel }) {
    this.#state = state;
    this.#view = view;
    this.#tools = tools;
    this.#panel = panel;
    this.#describe = describe;
    this.#onCancel = onCancel;
  }

  /** Takes back the last step of what is drawn. */
  undo() {
    this.#geometry.undo();
  }

  /** Takes the step again that was taken back last. */
  redo() {
    this.#geometry.redo();
  }

  /** @returns {import("./sketch.js").Sketch | null} what takes positions now */
  get sketch() {
    return this.#geometry?.sketch ?? null;
  }

  /**
   * Makes a new feature.
   * @param {Drawn} type
   * @param {string} collection the one that is offered first
   * @param {(edit: Edit) => Promise<void>} take closes the form if it takes the edit
   */
  begin(type, collection, take) {
    const { collections } = this.#view;
    const options = collections.map(({ id, title }) => element("option", { value: id }, title));
    const describe = () => this.#describeNew(chosen.value);
    const chosen = element("select", { id: "edit-collection", onchange: describe }, ...options);
    chosen.value = collection;
    const field = element(
      "input",
      { id: "edit-id", value: crypto.randomUUID(), maxlength: 128, required: true },
    );
    const finish = (geometry, properties) => {
      const id = field.value;
      if (!isId(id)) throw new Error(say("An id has 1 to 128 bytes and no control characters."));
      /** @type {Feature} */
      const feature = { type: "Feature", id, geometry, properties };
      return take({ op: "insert", collection: chosen.value, id, feature, base: null });
    };
    const which = [element("label", { for: "edit-collection" }, say("Collection")), chosen];
    const name = [element("label", { for: "edit-id" }, say("Id")), field];
    this.#open({ title: TITLES[type], which, name, feature: null, collection }, finish);
    this.#describeNew(collection);
    this.#geometry.draw(type);
  }

  /**
   * Takes the fields of a collection, and offers the properties of the feature added there last.
   * @param {string} collection
   */
  async #describeNew(collection) {
    const properties = this.#properties;
    properties.describe(this.#describe(collection));
    properties.offerLast(null);
    properties.offerLast(await readLast(collection));
  }

  /**
   * Changes a feature.
   * @param {string} collection
   * @param {Feature} feature as it is now
   * @param {(edit: Edit) => Promise<void>} take closes the form if it takes the edit
   */
  change(collection, feature, take) {
    const { id } = feature;
    const finish = (geometry, properties) => {
      /** @type {Feature} */
      const edited = { type: "Feature", id, geometry, properties };
      if (isSame(edited, feature)) {
        announce(say("Nothing was changed."));
        return this.cancel();
      }
      return take({ op: "replace", collection, id, feature: edited, base: feature });
    };
    this.#open({ title: say(
      "Edit {id}",
      { id },
    ), which: [], name: [], feature, collection }, finish);
    if (feature.geometry) this.#geometry.adjust(feature.geometry);
    else this.#geometry.offer();
  }

  /**
   * @param {{title: string, which: HTMLElement[], name: HTMLElement[], feature: Feature | null,
   *   collection: string}} parts
   * @param {(geometry: Geometry | null, properties: object | null) => Promise<void> | void} finish
   */
  #open({ title, which, name, feature, collection }, finish) {
    this.stop();
    this.#state.set("form", { ...closedForm(), isOpen: true });
    this.#problem.textContent = "";
    this.#tools.snapping.except = feature ? nameOf(collection, feature.id) : "";
    this.#geometry = new GeometryForm(this.#view.map, this.#state, this.#tools, {
      onProblem: (text) => (this.#problem.textContent = text),
      onMeasured: (accuracy) => this.#properties.measure(accuracy),
    });
    const description = this.#describe(collection);
    this.#properties = new PropertiesForm(feature?.properties ?? null, !feature, description);
    const geometry = [element("h3", {}, say("Geometry")), this.#geometry.element];
    const properties = [element("h3", {}, say("Properties")), this.#properties.element];
    // On a phone one draws above the form, so its fields come first.
    const order = isPhone()
      ? [...which, ...properties, ...geometry, ...name]
      : [...which, ...name, ...geometry, ...properties];
    const done = (event) => {
      event.preventDefault();
      this.#done(finish);
    };
    // Another collection alone is nothing that would be lost.
    const typed = ({ target }) => {
      if (target.id !== "edit-collection") this.#state.set("form", { isTyped: true });
    };
    const form = element(
      "form", { class: "editor", onsubmit: done, oninput: typed, novalidate: true },
      element("div", { class: "fields" }, element("h2", { tabindex: -1 }, title), ...order),
      this.#problem,
      element(
        "p", { class: "buttons" },
        element("button", { type: "submit", class: "main" }, say("Put in basket")),
        button(say("Cancel"), () => this.cancel()),
      ),
    );
    this.#panel.replaceChildren(form);
  }

  /**
   * Hands the edit on, which closes the form unless it is not taken.
   * @param {(geometry: Geometry | null, properties: object | null) => Promise<void> | void} finish
   */
  async #done(finish) {
    this.#problem.textContent = "";
    try {
      const geometry = this.#geometry.value();
      await finish(geometry, this.#properties.value());
    } catch (fault) {
      this.#problem.textContent = fault.message;
    }
  }

  /** Closes the form without an edit. */
  cancel() {
    this.close();
    this.#onCancel();
  }

  /** Takes the form away. */
  close() {
    this.stop();
    this.#panel.replaceChildren();
    this.#state.set("form", closedForm());
  }

  /** Ends drawing; the form stays. */
  stop() {
    this.#geometry?.stop();
  }
}
