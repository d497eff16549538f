/**
 * @file The page's address keeps the view, the switches, the filter and the feature, so that it can
 * be sent.
 *
 * @typedef {object} Address
 * @property {{x: number, y: number, zoom: number} | null} view the middle in metres
 * @property {string[]} off the collections that are switched off
 * @property {string} from
 * @property {string} to
 * @property {{collection: string, id: string} | null} feature
 */
import { metres, readMetres } from "./geometry.js";

/**
 * @param {string} hash of a location
 * @returns {Address}
 */
export function readAddress(hash) {
  const words = new URLSearchParams(hash.replace(/^#/, ""));
  const [x, y] = ["x", "y"].map((name) => readMetres(words.get(name) ?? ""));
  const zoom = Number(words.get("z") ?? NaN);
  const isView = x !== null && y !== null && Number.isFinite(zoom);
  const [, collection, id] = /^([^/]+)\/(.+)$/s.exec(words.get("id") ?? "") ?? [];
  const day = (name) => (/^\d{4}-\d{2}-\d{2}$/.test(words.get(name) ?? "") ? words.get(name) : "");
  return {
    view: isView ? { x: x / 1000, y: y / 1000, zoom } : null,
    off: (words.get("off") ?? "").split(",").filter(Boolean),
    from: day("from"),
    to: day("to"),
    feature: collection ? { collection, id } : null,
  };
}

/**
 * @param {Address} address
 * @returns {string} the hash that reads as it
 */
export function writeAddress({ view, off, from, to, feature }) {
  const words = new URLSearchParams();
  if (view) {
    words.set("x", metres(Math.round(view.x * 1000)));
    words.set("y", metres(Math.round(view.y * 1000)));
    words.set("z", String(Math.round(view.zoom * 100) / 100));
  }
  if (off.length) words.set("off", off.join(","));
  if (from) words.set("from", from);
  if (to) words.set("to", to);
  if (feature) words.set("id", `${feature.collection}/${feature.id}`);
  return `#${words}`;
}
