/**
 * @file The panel of areas that are taken along: how far, how large and how old each is.
 *
 * @typedef {import("./walking.js").Area} Area
 */
import { announce, button, element, renew } from "./element.js";
import { clock } from "./time.js";
import { progressOf } from "./walking.js";
import { inDigits, say } from "./words.js";

const UNITS = ["B", "kB", "MB", "GB"];

/**
 * @param {number} bytes
 * @returns {string}
 */
export function sizeInWords(bytes) {
  const step = Math.min(UNITS.length - 1, Math.floor(Math.log10(Math.max(1, bytes)) / 3));
  const value = bytes / 1000 ** step;
  return `${inDigits(Math.round(value * 10) / 10)} ${UNITS[step]}`;
}

export class AreasPanel {
  #list = element("ul", { class: "areas" });
  #areas;
  #view;

  /**
   * @param {HTMLElement} panel
   * @param {import("./areas.js").Areas} areas
   * @param {import("./view.js").View} view
   */
  constructor(panel, areas, view) {
    this.#areas = areas;
    this.#view = view;
    const take = button(say("Take this area along"), async () => {
      take.disabled = true;
      try {
        await areas.take(view.box, view.collections.map(({ id }) => id));
      } catch (fault) {
        announce(fault.message);
      } finally {
        take.disabled = false;
      }
    }, { id: "take-along" });
    const note = say(
      "All features of the view are kept on this device, to work without a network.",
    );
    if (!isSecureContext) return;
    panel.append(
      element("h2", {}, say("Take along")), element("p", { class: "note" }, note),
      element("p", { class: "buttons" }, take), this.#list,
    );
  }

  /** Shows the areas of now. */
  show() {
    renew(this.#list, ...this.#areas.list.map((area) => this.#row(area)));
  }

  /**
   * @param {Area} area
   * @returns {HTMLElement}
   */
  #row(area) {
    const { count, matched, isDone } = progressOf(area);
    const numbers = { count: inDigits(count), matched: inDigits(matched) };
    const size = sizeInWords(area.bytes);
    const text = isDone
      ? say("{count} features, {size}, as of {time}", { ...numbers, size, time: clock(area.begun) })
      : say("{count} of {matched} features, {size}", { ...numbers, size });
    const { problem } = this.#areas;
    const why = problem && !isDone ? say("It goes on later: {problem}", { problem }) : "";
    return element(
      "li", { class: isDone ? "area" : "area begun" },
      element("span", { class: "what" }, text),
      isDone ? null : element("progress", { max: matched || 1, value: count, "aria-label": text }),
      why ? element("p", { class: "problem" }, why) : null,
      element(
        "p", { class: "buttons" },
        button(say("Show"), () => this.#view.show(area.box), { class: "small" }),
        isDone
          ? button(say("Renew"), () => this.#areas.renew(area), { class: "small" })
          : button(say("Go on"), () => this.#areas.goOn(), { class: "small" }),
        button(say("Remove"), () => this.#areas.remove(area), { class: "small" }),
      ),
    );
  }
}
