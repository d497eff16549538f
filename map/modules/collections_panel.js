/**
 * @file The panel of collections: titles, colours, switches and how much of each is shown; the
 * filter of days, and the search by id.
 */
import { shownLimit } from "./api.js";
import { button, element } from "./element.js";
import { printSheet } from "./sheet.js";
import { swatch } from "./symbols.js";
import { MARKS } from "./texts.js";
import { inDigits, say } from "./words.js";

/**
 * @param {import("./loader.js").Count | undefined} count
 * @returns {string}
 */
function countText(count) {
  if (!count) return "";
  const numbers = [count.shown, count.matched];
  const [shown, matched] = numbers.map((number) => inDigits(number));
  return count.shown < count.matched ? say("{shown} of {matched}", { shown, matched }) : shown;
}

/**
 * @returns {HTMLElement[]} how edits that are still to come are marked on the map
 */
function legend() {
  return Object.entries(MARKS).map(([mark, text]) =>
    element("li", {}, element("span", { class: `swatch ring-${mark}` }), text),
  );
}

export class CollectionsPanel {
  #list = element("ul", { class: "collections" });
  #state;
  #view;
  #open;

  /**
   * @param {HTMLElement} panel
   * @param {import("./state.js").State} state
   * @param {import("./view.js").View} view
   * @param {{onSearch: (id: string) => void, onChoose: (collection: string, id: string) => void,
   *   onOpen: () => void}} listener
   */
  constructor(panel, state, view, { onSearch, onChoose, onOpen }) {
    this.#state = state;
    this.#view = view;
    this.#open = button(say("Open a collection"), onOpen);
    this.#listenChoose = onChoose;
    const [from, to] = ["from", "to"].map((name) =>
      element("input", { type: "date", id: `filter-${name}` }),
    );
    const filter = () => state.set("view", { from: from.value, to: to.value });
    for (const field of [from, to]) field.addEventListener("change", filter);
    const clear = button(say("All times"), () => state.set("view", { from: "", to: "" }));
    state.on("view", (now, before) => {
      if (from.value !== now.from) from.value = now.from;
      if (to.value !== now.to) to.value = now.to;
      if (now.off !== before.off) this.#showSwitches();
    });
    const id = element(
      "input",
      { id: "search-id", type: "search", autocomplete: "off", required: true },
    );
    const search = (event) => {
      event.preventDefault();
      if (id.value) onSearch(id.value);
    };
    panel.append(
      element("h2", {}, say("Collections")), this.#list,
      element(
        "p",
        { class: "buttons" },
        button(say("Show all"), () => view.showAll()),
        button(say("Ask again"), () => view.refresh()),
        button(say("Print"), () => printSheet(view), { id: "print" }),
        isSecureContext ? this.#open : null,
      ),
      element("ul", { class: "legend", "aria-label": say("Edits on the map") }, ...legend()),
      element("h2", {}, say("Time")),
      element(
        "div", { class: "field pair" },
        element("span", {}, element("label", { for: "filter-from" }, say("From")), from),
        element("span", {}, element("label", { for: "filter-to" }, say("To")), to),
      ),
      element(
        "p",
        { class: "note" },
        say("Days in UTC. With a filter, features without a time are not shown."),
      ),
      clear,
      element("h2", {}, say("Search")),
      element(
        "form", { class: "field search", onsubmit: search },
        element("label", { for: "search-id" }, say("Id or property")),
        id,
        element("button", { type: "submit" }, say("Find")),
      ),
      this.#found,
    );
  }

  #listenChoose;
  #found = element("ul", { class: "found", "aria-label": say("Found on this device") });

  /** @param {import("./search.js").Found[]} found */
  showFound(found) {
    const titleOf = (collection) =>
      this.#view.collections.find(({ id }) => id === collection)?.title ?? collection;
    const rows = found.map(({ collection, id, why }) =>
      element(
        "li", {},
        button(id, () => this.#listenChoose(collection, id), { class: "link" }),
        element("span", { class: "note" }, ` ${titleOf(collection)}${why ? `, ${why}` : ""}`),
      ),
    );
    this.#found.replaceChildren(...rows);
  }

  /** Shows the collections and counts of now. */
  show() {
    const { collections } = this.#view;
    this.#list.replaceChildren(...collections.map(({ id, title }) => this.#row(id, title)));
    this.#open.classList.toggle("main", collections.length === 0);
    if (collections.length > 0) return;
    const text = say("There is no collection yet. Open one to begin the town.");
    this.#list.append(element("li", {}, text));
  }

  /** @returns {HTMLElement[]} the rows of collections */
  get #rows() {
    return [...this.#list.querySelectorAll("li")].filter((row) => row.dataset.id);
  }

  /** Shows the counts of now. */
  showCounts() {
    for (const row of this.#rows) {
      row.querySelector(".count").textContent = this.#countOf(row.dataset.id);
    }
  }

  /**
   * @param {string} id of a collection
   * @returns {string} how much of it is shown; no text if it is switched off
   */
  #countOf(id) {
    const isOff = this.#state.view.off.includes(id);
    return countText(isOff ? undefined : this.#view.counts.get(id));
  }

  /** Shows which collections are switched on. */
  #showSwitches() {
    for (const row of this.#rows) {
      row.querySelector("input").checked = !this.#state.view.off.includes(row.dataset.id);
    }
  }

  /**
   * @param {string} id of a collection
   * @param {boolean} isOn from now on
   */
  #switch(id, isOn) {
    const others = this.#state.view.off.filter((it) => it !== id);
    this.#state.set("view", { off: isOn ? others : [...others, id] });
  }

  /**
   * @param {string} id of a collection
   * @returns {HTMLElement | null} what its symbols mean
   */
  #symbols(id) {
    const { rows = [] } = this.#view.legends.get(id) ?? {};
    const usual = this.#view.palette.nameOf(id);
    const items = rows.map((row) => element("li", {}, swatch(row, usual), row.label));
    if (items.length === 0) return null;
    return element("ul", { class: "symbols", "aria-label": say("Symbols") }, ...items);
  }

  #row(id, title) {
    const box = element("input", {
      type: "checkbox",
      role: "switch",
      checked: !this.#state.view.off.includes(id),
      onchange: () => this.#switch(id, box.checked),
    });
    return element(
      "li", { "data-id": id },
      element(
        "label", {}, box,
        element("span", { class: `swatch ${this.#view.palette.nameOf(id)}` }),
        element("span", { class: "title" }, title),
      ),
      element("span", { class: "count" }, this.#countOf(id)),
      this.#symbols(id),
    );
  }
}

/**
 * @param {Map<string, import("./loader.js").Count>} counts
 * @param {(moment: number) => string} clock
 * @returns {{text: string, isProblem: boolean}} what is to be known of the view as a whole
 */
export function viewText(counts, clock) {
  const all = [...counts.values()];
  const problem = all.find((count) => count.problem)?.problem;
  const unfiltered = problem && all.some((count) => count.problem && !count.isFiltered);
  if (problem) {
    const times = all.flatMap(({ oldest }) => (oldest === null ? [] : [oldest]));
    const oldest = times.length ? clock(Math.min(...times)) : "";
    const seen = oldest
      ? say("Shown as of {oldest}.", { oldest })
      : say("Nothing was seen here before.");
    return {
      text: `${problem} ${seen}${unfiltered ? ` ${say("The time filter waits.")}` : ""}`,
      isProblem: true,
    };
  }
  const cut = all.filter(({ shown, matched }) => shown < matched && shown >= shownLimit());
  if (cut.length === 0) return { text: "", isProblem: false };
  const [shown, matched] = ["shown", "matched"].map((name) =>
    cut.reduce((sum, count) => sum + count[name], 0),
  );
  const numbers = { shown: inDigits(shown), matched: inDigits(matched) };
  return { text: say("{shown} of {matched} shown: zoom in", numbers), isProblem: false };
}
