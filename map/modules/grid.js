/**
 * @file What measures on the map: the grid of lines, the scale, and the place of the pointer.
 */
import * as L from "../leaflet/leaflet.esm.js";
import { Surface } from "./canvas.js";
import { colour } from "./colours.js";
import { element } from "./element.js";
import { inDigits } from "./words.js";

/** That of the lines, below all features. */
const LEVEL = 390;
const LINE_PIXELS = 110;
const SCALE_PIXELS = 120;

/**
 * @param {number} most in metres
 * @returns {number} the largest of 1, 2 and 5 times a power of ten that is not above it, from 1 mm
 *   on
 */
function roundDown(most) {
  const power = 10 ** Math.floor(Math.log10(most) + 1e-9);
  const factor = [5, 2, 1].find((each) => each * power <= most * (1 + 1e-9));
  return Math.max(0.001, factor * power);
}

/**
 * @param {number} length in metres
 * @returns {string}
 */
function inMetres(length) {
  const digits = Math.max(0, Math.min(3, -Math.floor(Math.log10(length) + 1e-9)));
  return inDigits(length, digits);
}

/**
 * @param {L.Map} map
 * @returns {{step: number, pixels: number}} the metres between two lines, and the pixels of a metre
 */
function measures(map) {
  const pixels = map.getZoomScale(map.getZoom(), 0);
  return { step: roundDown(LINE_PIXELS / pixels), pixels };
}

/**
 * @param {number} from
 * @param {number} to
 * @param {number} step
 * @returns {number[]} the multiples of a step
 */
function multiples(from, to, step) {
  const first = Math.ceil(from / step);
  const length = Math.max(0, Math.floor(to / step) - first + 1);
  return Array.from({ length }, (_, place) => (first + place) * step);
}

/**
 * Paints the lines of the grid.
 * @param {L.Map} map
 * @param {import("./canvas.js").Blank[]} blanks
 */
function paintLines(map, blanks) {
  const { step, pixels } = measures(map);
  const { x: east, y: south } = map.getPixelOrigin();
  const own = colour("grid");
  for (const { open, square: { left, top, right, bottom } } of blanks) {
    const context = open();
    context.strokeStyle = own;
    context.lineWidth = 1;
    context.beginPath();
    for (const x of multiples((left - 1 + east) / pixels, (right + 1 + east) / pixels, step)) {
      const at = Math.round(x * pixels - east);
      context.moveTo(at, top);
      context.lineTo(at, bottom);
    }
    for (const y of multiples(-(bottom + 1 + south) / pixels, -(top - 1 + south) / pixels, step)) {
      const at = Math.round(-y * pixels - south);
      context.moveTo(left, at);
      context.lineTo(right, at);
    }
    context.stroke();
  }
}

/**
 * Draws lines of the grid and writes their coordinates at the edges, in metres.
 * @param {L.Map} map
 * @returns {() => void} draws them again
 */
export function addGrid(map) {
  const surface = new Surface(map, "grid", LEVEL, (blanks) => paintLines(map, blanks));
  const labels = element("div", { class: "grid-labels", "aria-hidden": "true" });
  map.getContainer().append(labels);
  const label = (way, value, step, pixel) => {
    const text = element("span", { class: way }, inMetresAt(value, step));
    text.style[way === "easting" ? "left" : "top"] = `${pixel}px`;
    return text;
  };
  const write = () => {
    const bounds = map.getBounds();
    const { step } = measures(map);
    const [west, south] = [bounds.getWest(), bounds.getSouth()];
    const eastings = multiples(west, bounds.getEast(), step).map((x) =>
      label("easting", x, step, map.latLngToContainerPoint([south, x]).x),
    );
    const northings = multiples(south, bounds.getNorth(), step).map((y) =>
      label("northing", y, step, map.latLngToContainerPoint([y, west]).y),
    );
    labels.replaceChildren(...eastings, ...northings);
  };
  map.on("moveend", write);
  map.on("movestart", () => labels.replaceChildren());
  return () => {
    surface.paintAgain();
    write();
  };
}

/**
 * @param {number} value in metres
 * @param {number} step between two lines
 * @returns {string}
 */
function inMetresAt(value, step) {
  const digits = Math.max(0, Math.min(3, -Math.floor(Math.log10(step) + 1e-9)));
  return inDigits(Math.round(value * 1000) / 1000 || 0, digits);
}

/**
 * Draws a scale in metres.
 * @param {L.Map} map
 */
export function addScale(map) {
  const bar = element("div", { class: "scale" });
  const Scale = L.Control.extend({ onAdd: () => bar });
  new Scale({ position: "bottomleft" }).addTo(map);
  const draw = () => {
    const pixels = map.getZoomScale(map.getZoom(), 0);
    const length = roundDown(SCALE_PIXELS / pixels);
    bar.style.width = `${Math.round(length * pixels)}px`;
    bar.textContent = `${inMetres(length)} m`;
  };
  map.on("zoomend", draw);
  map.whenReady(draw);
}
