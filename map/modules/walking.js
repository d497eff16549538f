/**
 * @file The walk over an area that is taken along: collection by collection and page by page. What
 * was walked is noted after each page, so that it goes on there after a cut.
 *
 * @typedef {import("./feature.js").Feature} Feature
 * @typedef {object} Part a collection within an area
 * @property {string} collection
 * @property {string | null} next where its next page is; null for the first one
 * @property {number} count how many features are kept
 * @property {number} matched how many it has
 * @property {boolean} isDone
 * @typedef {object} Area
 * @property {number} number
 * @property {import("./geometry.js").Box} box
 * @property {number} begun when the walk began: nothing of it is older
 * @property {number} bytes the size of its features as text
 * @property {Part[]} parts
 * @typedef {object} Way
 * @property {(collection: string, box: import("./geometry.js").Box) => string} first where the
 *   first page of a collection is
 * @property {(target: string) => Promise<import("./api.js").Page | null>} read null if the
 *   collection is not there any more
 * @property {(collection: string, features: Feature[]) => Promise<void>} keep
 * @property {(area: Area) => Promise<boolean>} note returns whether the area is still wanted
 * @property {(part: Part, ids: Set<string>) => Promise<void>} finish gets all ids of a part that
 *   was walked in one go
 */
import { writeJson } from "./json.js";

/** What is read of a collection that is not there. */
const NOTHING = { features: [], next: null, numberMatched: 0 };

/**
 * @param {number} number
 * @param {import("./geometry.js").Box} box
 * @param {{collection: string, matched: number}[]} counted
 * @returns {Area} none of which was walked
 */
export function newArea(number, box, counted) {
  const parts = counted.map(({ collection, matched }) => ({
    collection,
    next: null,
    count: 0,
    matched,
    isDone: false,
  }));
  return { number, box, begun: Date.now(), bytes: 0, parts };
}

/**
 * @param {Area} area
 * @returns {{count: number, matched: number, isDone: boolean}}
 */
export function progressOf({ parts }) {
  const sum = (name) => parts.reduce((total, part) => total + part[name], 0);
  const isDone = parts.every((part) => part.isDone);
  const count = sum("count");
  return { count, matched: Math.max(count, sum("matched")), isDone };
}

/**
 * Walks on from where the area was left. It ends early if the area is not wanted any more, and
 * throws what `read` throws.
 * @param {Area} area is changed as it is walked
 * @param {Way} way
 */
export async function walk(area, way) {
  for (const part of area.parts) {
    if (!part.isDone && !(await walkPart(area, part, way))) return;
  }
}

/**
 * @param {Area} area
 * @param {Part} part
 * @param {Way} way
 * @returns {Promise<boolean>} whether the area is still wanted
 */
async function walkPart(area, part, way) {
  const ids = part.next === null ? new Set() : null;
  while (!part.isDone) {
    const target = part.next ?? way.first(part.collection, area.box);
    const page = await way.read(target);
    const { features, next, numberMatched } = page ?? NOTHING;
    await way.keep(part.collection, features);
    for (const { id } of features) ids?.add(id);
    part.count += features.length;
    part.matched = Math.max(part.count, numberMatched);
    [part.next, part.isDone] = [next, next === null];
    area.bytes += features.reduce((sum, feature) => sum + writeJson(feature).length, 0);
    if (!(await way.note(area))) return false;
  }
  if (ids) await way.finish(part, ids);
  return true;
}
