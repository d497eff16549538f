/**
 * @file The map of Leaflet that the view works with: metres for degrees, down to a millimetre.
 */
import * as L from "../leaflet/leaflet.esm.js";

/** A metre is 2^zoom pixels. */
const ZOOMS = { minZoom: -11, maxZoom: 10 };

/**
 * @param {HTMLElement} container
 * @returns {L.Map} it follows the size of the container
 */
export function makeMap(container) {
  const options = {
    crs: L.CRS.Simple,
    attributionControl: false,
    zoomControl: false,
    preferCanvas: true,
    zoomSnap: 0.25,
    zoomDelta: 0.5,
  };
  const map = L.map(container, { ...options, ...ZOOMS });
  map.setView([0, 0], 0);
  L.control.zoom({ position: "topright" }).addTo(map);
  new ResizeObserver(() => map.invalidateSize({ animate: false })).observe(container);
  return map;
}
