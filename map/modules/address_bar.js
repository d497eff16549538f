/**
 * @file Keeps the page's address and the state the same: the view, the switches, the filter and the
 * feature that is chosen.
 */
import { readAddress, writeAddress } from "./address.js";

/**
 * @param {readonly string[]} one
 * @param {readonly string[]} other
 */
function isSame(one, other) {
  return one.length === other.length && one.every((name, place) => name === other[place]);
}

/**
 * Takes what the address says of the view into the state.
 * @param {import("./state.js").State} state
 * @returns {import("./address.js").Address}
 */
export function takeAddress(state) {
  const address = readAddress(location.hash);
  const { view, from, to } = address;
  const off = isSame(address.off, state.view.off) ? state.view.off : address.off;
  state.set("view", { ...view, off, from, to });
  return address;
}

/**
 * Writes the address whenever what it has changes, once the view was chosen.
 * @param {import("./state.js").State} state
 */
export function keepAddress(state) {
  const write = () => {
    const { x, y, zoom, isPlaced, off, from, to } = state.view;
    if (!isPlaced) return;
    const feature = state.choice.name;
    const hash = writeAddress({ view: { x, y, zoom }, off: [...off], from, to, feature });
    if (hash !== location.hash) history.replaceState(null, "", hash);
  };
  state.on("view", write);
  state.on("choice", write);
}
