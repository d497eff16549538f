/**
 * @file The tabs of the panel: one is shown, arrow keys go from one to the next. On a phone, the
 * tab that is shown closes the panel.
 */
import { isPhone } from "./element.js";

export class Tabs {
  #tabs;

  /** @param {HTMLElement} list with the role `tablist` */
  constructor(list) {
    /** @type {NodeListOf<HTMLElement>} */
    const tabs = list.querySelectorAll("[role=tab]");
    this.#tabs = [...tabs];
    for (const tab of this.#tabs) {
      tab.addEventListener("click", () => this.#press(tab));
      tab.addEventListener("keydown", (event) => this.#key(event, tab));
    }
    this.open(this.#tabs[0].dataset.tab);
    if (isPhone()) document.body.classList.add("closed");
  }

  #press(tab) {
    const isShown = tab.getAttribute("aria-selected") === "true";
    if (isPhone() && isShown) document.body.classList.toggle("closed");
    else this.open(tab.dataset.tab);
  }

  /**
   * @param {KeyboardEvent} event
   * @param {HTMLElement} tab
   */
  #key(event, tab) {
    const way = { ArrowRight: 1, ArrowLeft: -1 }[event.key];
    if (!way) return;
    const { length } = this.#tabs;
    const next = this.#tabs[(this.#tabs.indexOf(tab) + way + length) % length];
    this.open(next.dataset.tab);
    next.focus();
    event.preventDefault();
  }

  /** @param {string} name of the tab that is to be shown */
  open(name) {
    document.body.classList.remove("closed");
    for (const tab of this.#tabs) {
      const isShown = tab.dataset.tab === name;
      tab.setAttribute("aria-selected", String(isShown));
      tab.tabIndex = isShown ? 0 : -1;
      document.getElementById(tab.getAttribute("aria-controls")).hidden = !isShown;
    }
  }
}
