/**
 * @file Elements of the page. Texts become text nodes, so text from properties is never read as
 * HTML.
 */

/** So long a message is shown. */
const MESSAGE_SECONDS = 12;
let silence = 0;

/**
 * @template {keyof HTMLElementTagNameMap} Name
 * @param {Name} name
 * @param {Record<string, any>} [attributes] a function is a listener, false and null are left out
 * @param {...(Node | string | null | false | undefined)} children
 * @returns {HTMLElementTagNameMap[Name]}
 */
export function element(name, attributes = {}, ...children) {
  const made = document.createElement(name);
  for (const [attribute, value] of Object.entries(attributes)) {
    if (typeof value === "function") made.addEventListener(attribute.slice(2), value);
    else if (value === true) made.setAttribute(attribute, "");
    else if (value !== false && value != null) made.setAttribute(attribute, String(value));
  }
  const isThere = (child) => child !== null && child !== undefined && child !== false;
  made.append(.../** @type {(Node | string)[]} */ (children.filter(isThere)));
  return made;
}

/**
 * @param {string} text
 * @param {() => void} onclick
 * @param {Record<string, any>} [attributes]
 * @returns {HTMLButtonElement}
 */
export function button(text, onclick, attributes = {}) {
  return element("button", { type: "button", onclick, ...attributes }, text);
}

/**
 * @param {string} id
 * @returns {HTMLElement & Record<string, any>}
 */
export function byId(id) {
  return document.getElementById(id);
}

/** @returns {boolean} whether the page has the layout of a phone */
export function isPhone() {
  return matchMedia("(max-width: 799px)").matches;
}

/**
 * Gives an element other children. Where the focus was on a button in it, it goes to the button
 * that now has the place and the text of that one, else to the element.
 * @param {HTMLElement} parent
 * @param {...(Node | string)} children
 */
export function renew(parent, ...children) {
  const nameOf = (it) => `${it.getAttribute("aria-label") ?? ""} ${it.textContent}`;
  const focused = parent.contains(document.activeElement) ? document.activeElement : null;
  /** @type {Element[]} */
  const before = [...parent.querySelectorAll("button")];
  const place = focused && before.indexOf(focused);
  parent.replaceChildren(...children);
  if (!focused || focused === parent) return;
  const buttons = [...parent.querySelectorAll("button")];
  const same = buttons[place] && nameOf(buttons[place]) === nameOf(focused) ? buttons[place] : null;
  (same ?? buttons.find((it) => nameOf(it) === nameOf(focused)) ?? parent).focus();
}

/**
 * Says something to all, also to those who hear the page.
 * @param {string} text
 */
export function announce(text) {
  clearTimeout(silence);
  byId("message").textContent = text;
  silence = setTimeout(() => (byId("message").textContent = ""), MESSAGE_SECONDS * 1000);
}

/**
 * Takes a message away that holds no longer, unless another one came since.
 * @param {string} text
 */
export function takeBack(text) {
  if (byId("message").textContent === text) announce("");
}

/**
 * Asks in a dialog.
 * @param {string} title
 * @param {(Node | string)[]} content
 * @param {{text: string, value: any, class?: string}[]} answers the first is the usual one; a value
 *   that is a function returns the value, or throws what is wrong, and then the dialog stays
 * @param {boolean} [isOpen] whether no answer is the usual one: none has the focus
 * @returns {Promise<any>} the value of the answer, or null if the dialog was left
 */
export function askInDialog(title, content, answers, isOpen = false) {
  return new Promise((resolve) => {
    let result = null;
    const problem = element("p", { class: "problem", role: "alert" });
    const close = (value) => {
      try {
        result = typeof value === "function" ? value() : value;
        dialog.close();
      } catch (fault) {
        problem.textContent = fault.message;
      }
    };
    const hasInput = (part) => part instanceof Element && part.querySelector("input") !== null;
    const buttons = answers.map(({ text, value, class: name }, index) =>
      button(text, () => close(value), {
        class: name ?? (index === 0 && !isOpen ? "main" : null),
        autofocus: index === 0 && !isOpen && !content.some(hasInput),
      }),
    );
    const dialog = element(
      "dialog",
      { "aria-labelledby": "dialog-title" },
      element("h2", { id: "dialog-title", tabindex: isOpen ? -1 : null, autofocus: isOpen }, title),
      ...content,
      problem,
      element("p", { class: "buttons" }, ...buttons),
    );
    dialog.addEventListener("keydown", (event) => {
      if (event.key === "Enter" && event.target instanceof HTMLInputElement) {
        event.preventDefault();
        if (!isOpen) buttons[0].click();
      }
    });
    dialog.addEventListener("close", () => {
      dialog.remove();
      resolve(result);
    });
    document.body.append(dialog);
    dialog.showModal();
  });
}
