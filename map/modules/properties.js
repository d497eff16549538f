/**
 * @file The editor of properties: a table, and the same as raw JSON.
 */
import { button, element } from "./element.js";
import { writeJson } from "./json.js";
import { checkNumbers, readProperties } from "./kinds.js";
import { PropertyRow } from "./property_row.js";
import { say } from "./words.js";

export class PropertiesEditor {
  /** @type {PropertyRow[]} */
  #rows = [];
  #wasNull;
  #isRaw = false;
  #kinds;
  #names = element("datalist", { id: "property-names" });
  #table = element("tbody");
  #raw = element("textarea", { rows: 10, spellcheck: "false", "aria-label": say(
    "Properties as JSON",
  ) });
  #problem = element("p", { class: "problem", role: "alert" });

  /**
   * @param {object | null} properties
   * @param {Map<string, string>} kinds the names that others have, and the kinds of their values
   */
  constructor(properties, kinds) {
    this.#wasNull = properties === null;
    const head = element(
      "tr",
      {},
      ...[say("Name"), say("Kind"), say(
        "Value",
      ), ""].map((text) => element("th", { scope: "col" }, text)),
    );
    this.offer(kinds);
    this.#fill(properties);
    this.table = element("table", { class: "properties" }, element("thead", {}, head), this.#table);
    this.add = button(say("Add a property"), () => this.#addRow(null).name.focus());
    this.toggle = button(say("As JSON"), () => this.#switch());
    this.#raw.hidden = true;
    this.element = element(
      "div", {}, this.#names, this.table, this.#raw, this.#problem,
      element("p", { class: "buttons" }, this.add, this.toggle),
    );
  }

  /**
   * Offers the names of a collection; new properties take its kinds.
   * @param {Map<string, string>} kinds
   */
  offer(kinds) {
    this.#kinds = kinds;
    const options = [...kinds.keys()].map((name) => element("option", { value: name }));
    this.#names.replaceChildren(...options);
    for (const row of this.#rows) row.suit();
  }

  /** @param {object | null} properties */
  #fill(properties) {
    this.#rows = [];
    this.#table.replaceChildren();
    for (const [name, value] of Object.entries(properties ?? {})) this.#addRow({ name, value });
  }

  /**
   * @param {{name: string, value: any} | null} property null for a new one
   * @returns {PropertyRow}
   */
  #addRow(property) {
    const remove = () => this.#rows.splice(this.#rows.indexOf(row), 1);
    const row = new PropertyRow(property, () => this.#kinds, remove);
    this.#rows.push(row);
    this.#table.append(row.element);
    return row;
  }

  /** @returns {boolean} whether it has no property */
  get isEmpty() {
    return this.#isRaw ? this.#raw.value.trim() === "" : this.#rows.length === 0;
  }

  /**
   * Puts properties in, in place of those that have the same names.
   * @param {Map<string, any>} properties
   */
  put(properties) {
    const value = new Map([...Object.entries(this.value() ?? {}), ...properties]);
    if (this.#isRaw) this.#raw.value = writeJson(Object.fromEntries(value), 2);
    else this.#fill(Object.fromEntries(value));
  }

  /** @returns {object | null} what the table writes */
  #fromTable() {
    const found = new Map();
    for (const row of this.#rows) {
      const name = row.name.value;
      if (found.has(name)) throw new Error(say("The name “{name}” is there twice.", { name }));
      found.set(name, row.value());
    }
    return found.size === 0 && this.#wasNull ? null : Object.fromEntries(found);
  }

  /** Goes from the table to raw JSON, or back. */
  #switch() {
    try {
      const value = this.value();
      if (this.#isRaw) this.#fill(value);
      else this.#raw.value = writeJson(value, 2);
      this.#wasNull = value === null;
    } catch {
      return;
    }
    this.#isRaw = !this.#isRaw;
    this.#raw.hidden = !this.#isRaw;
    this.table.hidden = this.#isRaw;
    this.add.hidden = this.#isRaw;
    this.toggle.textContent = this.#isRaw ? say("As a table") : say("As JSON");
  }

  /** @returns {object | null} the properties; it throws and shows why if they cannot be read */
  value() {
    this.#problem.textContent = "";
    try {
      const value = this.#isRaw ? readProperties(this.#raw.value) : this.#fromTable();
      for (const [name, inner] of Object.entries(value ?? {})) checkNumbers(inner, name);
      return value;
    } catch (fault) {
      this.#problem.textContent = fault.message;
      throw fault;
    }
  }
}
