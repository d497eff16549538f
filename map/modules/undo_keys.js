/**
 * @file Undo and redo by keys: of what is drawn while a form is open, else of the basket.
 */
import { redoStep, undoStep } from "./basket_panel.js";

/** Fields whose text the browser itself takes back. */
const TYPED = "textarea, input:not([type=checkbox], [type=radio], [type=file])";

/**
 * @param {KeyboardEvent} event
 * @returns {"undo" | "redo" | null} what the keys mean
 */
export function askedBy({ key, ctrlKey, metaKey, altKey, shiftKey }) {
  if (!(ctrlKey || metaKey) || altKey) return null;
  const name = key.toLowerCase();
  if (name === "z") return shiftKey ? "redo" : "undo";
  return name === "y" && !shiftKey ? "redo" : null;
}

/**
 * @param {import("./state.js").State} state
 * @param {import("./editor.js").Editor} editor
 */
export function listenForUndo(state, editor) {
  document.addEventListener("keydown", (event) => {
    const asked = askedBy(event);
    const isTyped = event.target instanceof Element && event.target.matches(TYPED);
    if (!asked || isTyped || document.querySelector("dialog[open]")) return;
    event.preventDefault();
    if (state.form.isOpen) editor[asked]();
    else if (asked === "undo") undoStep();
    else redoStep();
  });
}
