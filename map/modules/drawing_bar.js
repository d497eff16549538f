/**
 * @file The buttons over the map while one draws: one's own position, on a phone the place under
 * the crosshair, undo and redo, and snapping; and the measures of what is drawn.
 */
import { announce, button, byId, isPhone } from "./element.js";
import { accuracyInWords } from "./position.js";
import { say } from "./words.js";

export class DrawingBar {
  #snapping;
  #listener = { onUndo: () => {}, onRedo: () => {} };

  /** @param {import("./snapping.js").Snapping} snapping */
  constructor(snapping) {
    this.#snapping = snapping;
    byId("undo").addEventListener("click", () => this.#listener.onUndo());
    byId("redo").addEventListener("click", () => this.#listener.onRedo());
    byId("snap").addEventListener("click", () => {
      snapping.set(!snapping.isOn);
      this.#showSnapping();
      announce(snapping.isOn ? say("Vertices are snapped to.") : say("Nothing is snapped to."));
    });
  }

  /**
   * Shows the buttons.
   * @param {{onUndo: () => void, onRedo: () => void}} listener
   */
  open(listener) {
    this.#listener = listener;
    this.#showSnapping();
    byId("placing").hidden = false;
    byId("map").parentElement.classList.add("drawing");
  }

  #showSnapping() {
    byId("snap").setAttribute("aria-pressed", String(this.#snapping.isOn));
  }

  /**
   * Shows what takes positions now.
   * @param {import("./sketch.js").Sketch | null} sketch null if nothing does
   * @param {import("./position.js").OwnPosition | null} own
   * @param {HTMLButtonElement[]} others that belong to the sketch
   */
  place(sketch, own, others) {
    const buttons = sketch ? [...(own ? [atOwn(sketch, own)] : []), ...others] : [];
    if (sketch && isPhone()) {
      buttons.unshift(button(say("Place here"), () => sketch.addMiddle(), { class: "main" }));
    }
    byId("placing-buttons").replaceChildren(...buttons);
    byId("map").parentElement.classList.toggle("placing", sketch !== null && isPhone());
  }

  /** @param {{canUndo: boolean, canRedo: boolean}} steps which exist */
  allow({ canUndo, canRedo }) {
    byId("undo").disabled = !canUndo;
    byId("redo").disabled = !canRedo;
  }

  /** @param {string} text the measures of what is drawn; no text if it has none */
  measure(text) {
    if (byId("measure").textContent !== text) byId("measure").textContent = text;
  }

  /** Takes the buttons away. */
  close() {
    this.place(null, null, []);
    this.measure("");
    byId("placing").hidden = true;
    byId("map").parentElement.classList.remove("drawing");
  }
}

/**
 * @param {import("./sketch.js").Sketch} sketch
 * @param {import("./position.js").OwnPosition} own
 * @returns {HTMLButtonElement} it adds one's own position
 */
function atOwn(sketch, own) {
  const mine = button(say("At my position"), async () => {
    mine.disabled = true;
    try {
      const { position, accuracy } = await own.take();
      if (sketch.isStopped) return;
      announce(say(
        "Placed at your position, {accuracy}.",
        { accuracy: accuracyInWords(accuracy) },
      ));
      sketch.add(position, accuracy);
    } catch (fault) {
      announce(fault.message);
    } finally {
      mine.disabled = false;
    }
  });
  return mine;
}
