/**
 * @file Search in the ids and properties of features that are kept on this device.
 *
 * @typedef {import("./feature.js").Feature} Feature
 * @typedef {{collection: string, feature: Feature}} Candidate
 * @typedef {{collection: string, id: string, why: string}} Found why it was found: no text if by
 *   its id
 */
import { valueText } from "./texts.js";

/** @param {string} text */
function plain(text) {
  return text.normalize("NFKD").replace(/\p{M}/gu, "").toLowerCase();
}

/**
 * @param {Feature} feature
 * @param {string} wanted without marks, in small letters
 * @returns {string | null} why it is found; null if it is not
 */
function reason({ id, properties }, wanted) {
  if (plain(id).includes(wanted)) return "";
  for (const [name, value] of Object.entries(properties ?? {})) {
    const text = valueText(value);
    if (plain(text).includes(wanted)) return `${name}: ${text}`;
  }
  return null;
}

/**
 * @param {Iterable<Candidate>} candidates
 * @param {string} text
 * @param {number} most
 * @returns {Found[]} at most that number, those by their id first
 */
export function searched(candidates, text, most) {
  const wanted = plain(text.trim());
  const [byId, byProperty] = [[], []];
  for (const { collection, feature } of candidates) {
    const why = wanted === "" ? null : reason(feature, wanted);
    if (why === null) continue;
    const list = why === "" ? byId : byProperty;
    list.push({ collection, id: feature.id, why });
    if (byId.length === most) break;
  }
  return [...byId, ...byProperty].slice(0, most);
}
