/**
 * @file A field that the office described: its label, and what it is typed into or chosen with.
 *
 * @typedef {import("./fields.js").Field} Field
 */
import { button, element } from "./element.js";
import { TRUTHS, accuracyText, fieldText, fieldValue, firstText } from "./fields.js";
import { TRUTH_TEXTS } from "./kinds.js";
import { say } from "./words.js";

/** Up to this number of choices, each has a button; more are a list. */
const MOST_BUTTONS = 8;
let made = 0;

export class FieldRow {
  /** Whether the user gave it a value. */
  #isTouched = false;
  #problem = element("span", { class: "problem", role: "alert" });
  /** @type {HTMLInputElement | HTMLSelectElement} */
  #input;
  /** @type {HTMLInputElement[]} the buttons of a choice */
  #options = [];
  #before;

  /**
   * @param {Field} field
   * @param {any} before the value that the feature has; undefined if it has none
   * @param {boolean} isNew whether the feature is new, so that the field's default counts
   */
  constructor(field, before, isNew) {
    this.field = field;
    this.#before = before;
    made += 1;
    this.element = this.#isButtons ? this.#buttons() : this.#typed();
    this.text = before === undefined && isNew ? firstText(field, new Date()) : fieldText(before);
  }

  /** @returns {string[]} the texts of its choices */
  get #choices() {
    return this.field.type === "yes/no" ? Object.keys(TRUTHS) : this.field.choices.map(fieldText);
  }

  get #isButtons() {
    const { type, choices } = this.field;
    return type === "yes/no" || (type === "choice" && choices.length <= MOST_BUTTONS);
  }

  /** @returns {HTMLElement} a button for each choice; pressed again, none is chosen */
  #buttons() {
    const name = `field-${made}`;
    const label = (text) => {
      const option = element("input", { type: "radio", name, value: text });
      const said = this.field.type === "yes/no" ? TRUTH_TEXTS[text] : text;
      let wasChosen = false;
      const isPressed = () => (wasChosen = option.checked);
      option.addEventListener("pointerdown", isPressed);
      option.addEventListener("click", () => {
        if (wasChosen) option.checked = false;
        wasChosen = false;
        this.#touch();
      });
      this.#options.push(option);
      return element("label", { class: "chip", onpointerdown: isPressed }, option, said);
    };
    return element(
      "fieldset",
      { class: "described" },
      element("legend", {}, this.#title),
      element("span", { class: "chips" }, ...this.#choices.map(label)),
      this.#problem,
    );
  }

  /** @returns {HTMLElement} a field that is typed into, or a list */
  #typed() {
    const id = `field-${made}`;
    const { type } = this.field;
    const oninput = () => this.#touch();
    if (type === "choice") {
      const options = ["", ...this.#choices].map((value) => element("option", { value }, value));
      this.#input = element("select", { id, onchange: oninput }, ...options);
    } else {
      const modes = { whole: "numeric", decimal: "decimal" };
      const kind = type === "date" ? "date" : "text";
      const inputmode = modes[type] ?? null;
      this.#input = element("input", { id, type: kind, inputmode, autocomplete: "off", oninput });
    }
    const today = () => {
      this.text = firstText({ ...this.field, from: "today" }, new Date());
      this.#touch();
    };
    return element(
      "p",
      { class: "described" },
      element("label", { for: id }, this.#title),
      element("span", { class: "entry" }, this.#input, type === "date"
        ? button(say("Today"), today, { "aria-label": say(
          "{label}: today",
          { label: this.field.label },
        ) }) : null),
      this.#problem,
    );
  }

  get #title() {
    return `${this.field.label}${this.field.isRequired ? ` (${say("needed")})` : ""}`;
  }

  #touch() {
    this.#isTouched = true;
    this.#problem.textContent = "";
  }

  /** @returns {string} what is typed or chosen */
  get text() {
    if (!this.#isButtons) return this.#input.value;
    return this.#options.find(({ checked }) => checked)?.value ?? "";
  }

  set text(text) {
    if (!this.#isButtons) this.#input.value = text;
    for (const option of this.#options) option.checked = option.value === text;
  }

  /**
   * Fills in how far a position may be off, unless the user gave the field a value.
   * @param {number | null} metres null if the position was not measured
   */
  measure(metres) {
    if (this.field.from !== "accuracy" || this.#isTouched) return;
    this.text = metres === null ? "" : accuracyText(this.field, metres);
  }

  /** @returns {any} the value; undefined if it has none. It throws, and shows why. */
  value() {
    this.#problem.textContent = "";
    if (this.text === fieldText(this.#before) && this.#before !== undefined) return this.#before;
    try {
      return fieldValue(this.field, this.text);
    } catch (fault) {
      this.#problem.textContent = fault.message;
      (this.#input ?? this.#options[0]).focus();
      throw fault;
    }
  }
}
