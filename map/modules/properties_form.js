/**
 * @file The properties in the form: the fields that the office described, then all others in a
 * table.
 *
 * @typedef {import("./fields.js").Field} Field
 * @typedef {object} Description what is known of the properties of a collection
 * @property {Field[]} fields those that the office described
 * @property {Map<string, string>} kinds the names that features have, and the kinds of their values
 */
import { button, element } from "./element.js";
import { FieldRow } from "./field_row.js";
import { fieldText, holds } from "./fields.js";
import { PropertiesEditor } from "./properties.js";
import { say } from "./words.js";

export class PropertiesForm {
  /** @type {FieldRow[]} */
  #rows = [];
  #before;
  #isNew;
  #fields = element("div", { class: "described-fields" });
  #others = element("details", {});
  /** @type {object | null} the properties of the feature that was added last */
  #last = null;
  #copyLast = element(
    "p",
    { class: "buttons" },
    button(say("As the last one"), () => this.#copy(this.#last)),
  );

  /**
   * @param {object | null} properties those that the feature has
   * @param {boolean} isNew
   * @param {Description} description
   */
  constructor(properties, isNew, description) {
    this.#before = properties;
    this.#isNew = isNew;
    this.offerLast(null);
    this.element = element(
      "div",
      { class: "all-properties" },
      this.#copyLast,
      this.#fields,
      this.#others,
    );
    this.describe(description);
  }

  /**
   * Takes the description of another collection. What was typed stays if the name is the same.
   * @param {Description} description
   */
  describe({ fields, kinds }) {
    const before = this.#before ?? {};
    // A value that is none of its field's is in the table, where its kind can change.
    const fits = (field) =>
      !Object.hasOwn(before, field.name) || holds(field, before[field.name]);
    const texts = new Map(this.#rows.map(({ field, text }) => [field.name, text]));
    const valueIn = (name) => (Object.hasOwn(before, name) ? before[name] : undefined);
    this.#rows = fields
      .filter(fits)
      .map((field) => new FieldRow(field, valueIn(field.name), this.#isNew));
    for (const row of this.#rows) {
      if (texts.get(row.field.name)) row.text = texts.get(row.field.name);
    }
    this.#fields.replaceChildren(...this.#rows.map((row) => row.element));
    const names = new Set(this.#rows.map(({ field }) => field.name));
    const others = new Map([...kinds].filter(([name]) => !names.has(name)));
    if (this.table) return this.#showTable(others);
    const rest = Object.entries(before).filter(([name]) => !names.has(name));
    this.table = new PropertiesEditor(
      this.#before && Object.fromEntries(rest),
      others,
    );
    return this.#showTable(others);
  }

  /** @param {Map<string, string>} kinds of the properties that have no field */
  #showTable(kinds) {
    this.table.offer(kinds);
    const isFolded = this.#rows.length > 0 && this.table.isEmpty;
    const title = element("summary", {}, say("Other properties"));
    title.hidden = this.#rows.length === 0;
    this.#others.open = !isFolded;
    this.#others.replaceChildren(title, this.table.element);
  }

  /**
   * Offers the properties of the feature that was added last.
   * @param {object | null} properties null if it has none
   */
  offerLast(properties) {
    this.#last = properties;
    this.#copyLast.hidden = properties === null;
  }

  /** @param {object} properties those of another feature */
  #copy(properties) {
    const left = new Map(Object.entries(properties));
    for (const row of this.#rows) {
      const { field } = row;
      const value = left.get(field.name);
      left.delete(field.name);
      if (field.isCopied && value !== undefined && holds(field, value)) row.text = fieldText(value);
    }
    this.table.put(left);
    if (left.size > 0) this.#others.open = true;
  }

  /** @param {number | null} metres how far the feature's position may be off */
  measure(metres) {
    for (const row of this.#rows) row.measure(metres);
  }

  /** @returns {object | null} the properties; it throws, and shows why, if they cannot be read */
  value() {
    const others = this.table.value();
    const found = new Map();
    for (const row of this.#rows) {
      const value = row.value();
      if (value !== undefined) found.set(row.field.name, value);
    }
    const names = Object.keys(others ?? {});
    const twice = names.find((name) => found.has(name));
    if (twice !== undefined) {
      throw new Error(say("The name “{name}” is there twice.", { name: twice }));
    }
    if (others === null && found.size === 0) return null;
    for (const name of names) found.set(name, others[name]);
    return Object.fromEntries(found);
  }
}
