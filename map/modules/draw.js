/**
 * @file What drawing on the map has in common: whole millimetres, and the style of a draft.
 */
import { colour } from "./colours.js";
import { onGrid } from "./geometry.js";

/**
 * @param {import("../leaflet/leaflet.esm.js").LatLng} place
 * @returns {import("./geometry.js").Position}
 */
export function toPosition({ lat, lng }) {
  return onGrid(lng * 1000, lat * 1000);
}

/**
 * @returns {object} the style of what is drawn
 */
export function draftStyle() {
  return {
    pane: "draft",
    interactive: false,
    color: colour("draft"),
    weight: 3,
    fillOpacity: 0.15,
  };
}

/**
 * @param {import("../leaflet/leaflet.esm.js").Map} map
 */
export function makePane(map) {
  if (map.getPane("draft")) return;
  const pane = map.createPane("draft");
  pane.style.zIndex = "450";
  pane.style.pointerEvents = "none";
}
