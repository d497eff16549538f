/**
 * @file How many features a view has after others changed some: only if that is certain without
 * asking the server, which alone knows whether a line or an area meets a box.
 *
 * @typedef {import("./geometry.js").Box} Box
 * @typedef {import("./loader.js").Count} Count
 * @typedef {import("./changes.js").Change} Change
 */
import { boxOf, contains, overlaps } from "./geometry.js";

/**
 * @param {import("./feature.js").Feature | null} feature
 * @param {Box} box
 * @returns {boolean | null} whether it meets the box; null if that is not certain
 */
function meets(feature, box) {
  const own = feature && boxOf(feature.geometry);
  if (!own || !overlaps(own, box)) return false;
  return contains(box, own) ? true : null;
}

/**
 * @param {ReadonlyMap<string, Count>} counts
 * @param {number} serial
 * @returns {Map<string, Count>} the same counts, of this state
 */
export function ofState(counts, serial) {
  return new Map([...counts].map(([id, count]) => [id, { ...count, serial }]));
}

/**
 * @param {ReadonlyMap<string, Count>} counts of the collections that are switched on
 * @param {Box} box of the view
 * @param {Change[]} changes of these collections
 * @param {number} serial of the state that they lead to
 * @returns {Map<string, Count> | null} the counts after them; null if the view has to be requested
 */
export function countsAfter(counts, box, changes, serial) {
  const after = ofState(counts, serial);
  for (const collection of new Set(changes.map((it) => it.collection))) {
    const count = after.get(collection);
    const isWhole = count && !count.problem && count.shown === count.matched;
    if (!isWhole) return null;
    count.ids = new Set(count.ids);
  }
  for (const { collection, id, feature } of changes) {
    const isMet = meets(feature, box);
    if (isMet === null) return null;
    const count = after.get(collection);
    if (isMet) count.ids.add(id);
    else count.ids.delete(id);
    count.shown = count.matched = count.ids.size;
  }
  return after;
}

/**
 * @param {import("./api.js").Collection[]} collections
 * @param {Change[]} changes
 * @returns {import("./api.js").Collection[]} with extents that hold what was put in. What was taken
 *   out may leave them too large until the server says them again.
 */
export function extentsAfter(collections, changes) {
  return collections.map((it) => {
    const own = changes.filter(({ collection, feature }) => collection === it.id && feature);
    const boxes = own.map(({ feature }) => boxOf(feature.geometry)).filter(Boolean);
    return boxes.length ? { ...it, extent: boxes.reduce(joined, it.extent ?? boxes[0]) } : it;
  });
}

/**
 * @param {Box} one
 * @param {Box} other
 * @returns {Box} the smallest that holds both
 */
function joined(one, other) {
  return {
    x0: Math.min(one.x0, other.x0),
    y0: Math.min(one.y0, other.y0),
    x1: Math.max(one.x1, other.x1),
    y1: Math.max(one.y1, other.y1),
  };
}
