/**
 * @file A row of the table of properties: a name, the kind of the value, and the value.
 */
import { button, element } from "./element.js";
import { writeJson } from "./json.js";
import { KINDS, TRUTH_TEXTS, kindOf, kindTyped, valueOf } from "./kinds.js";
import { say } from "./words.js";

export class PropertyRow {
  /** Whether the kind follows the name and what is typed, until the user chooses one. */
  #isFree;
  #kinds;
  #typed = "";
  #cell = element("td");

  /**
   * @param {{name: string, value: any} | null} property null for a new one
   * @param {() => Map<string, string>} kinds those that properties have in other features
   * @param {() => void} onRemove
   */
  constructor(property, kinds, onRemove) {
    this.#isFree = property === null;
    this.#kinds = kinds;
    this.name = element("input", {
      value: property?.name ?? "",
      list: "property-names",
      "aria-label": say("Name of the property"),
      oninput: () => this.suit(),
    });
    const options = Object.entries(KINDS).map(([kind, text]) =>
      element("option", { value: kind }, text),
    );
    this.kind = element(
      "select",
      { "aria-label": say("Kind of the value"), onchange: () => this.#choose() },
      ...options,
    );
    this.#fill(property ? property.value : "");
    const remove = button("×", () => {
      this.element.remove();
      onRemove();
    }, { "aria-label": say("Remove this property"), class: "small" });
    this.element = element(
      "tr", {}, element("td", {}, this.name), element("td", {}, this.kind), this.#cell,
      element("td", {}, remove),
    );
  }

  /** @param {any} value */
  #fill(value) {
    this.kind.value = kindOf(value);
    if (typeof value === "string") this.#typed = value;
    else if (typeof value === "boolean") this.#typed = String(value);
    else this.#typed = value === null ? "" : writeJson(value);
    this.#show();
  }

  /** Shows the field that the kind needs, with what was typed. */
  #show() {
    const kind = this.kind.value;
    if (kind === "truth") {
      const options = Object.entries(TRUTH_TEXTS).map(([value, text]) =>
        element("option", { value }, text),
      );
      this.field = element("select", { "aria-label": say("Value") }, ...options);
      this.field.value = /^(false|no)$/i.test(this.#typed.trim()) ? "no" : "yes";
    } else {
      this.field = element("input", {
        "aria-label": say("Value"),
        inputmode: kind === "number" ? "numeric" : "text",
        value: this.#typed,
        disabled: kind === "nothing",
        oninput: () => this.#type(),
        onchange: () => this.suit(),
      });
    }
    this.#cell.replaceChildren(this.field);
  }

  #choose() {
    this.#isFree = false;
    this.#show();
  }

  #type() {
    this.#typed = this.field.value;
    // The field that is typed in stays: yes or no is shown once it is left.
    if (this.#isFree && this.#wanted() !== "truth") this.kind.value = this.#wanted();
  }

  /** @returns {string} the kind that suits the name, or else what was typed */
  #wanted() {
    return this.#kinds().get(this.name.value) ?? kindTyped(this.#typed);
  }

  /** Takes the kind that suits, unless the user chose one. */
  suit() {
    if (!this.#isFree || this.kind.value === this.#wanted()) return;
    this.kind.value = this.#wanted();
    this.#show();
  }

  /** @returns {any} the value; it throws if the text is none of its kind */
  value() {
    return valueOf(this.name.value, this.kind.value, this.field.value);
  }
}
