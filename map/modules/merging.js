/**
 * @file Two changes of one feature, put together by property: what only one side changed is taken
 * from it, and what both changed is left to the user.
 *
 * @typedef {import("./basket.js").Edit} Edit
 * @typedef {import("./feature.js").Feature} Feature
 * @typedef {"mine" | "theirs"} Side
 */
import { differences, isSame } from "./feature.js";

/**
 * @param {Feature | null} one
 * @param {Feature | null} other
 * @returns {Set<string>} `geometry`, and the names of the properties in which the two differ
 */
function changes(one, other) {
  const asObject = (feature) => ({ ...feature, properties: feature.properties ?? {} });
  const found = differences(asObject(one), asObject(other));
  return new Set(found.map(({ what, isGeometry }) => keyOf(what, isGeometry)));
}

/**
 * A property may be called `geometry` too.
 * @param {string} what
 * @param {boolean | undefined} isGeometry
 * @returns {string} a name that no property has if it is the geometry's
 */
function keyOf(what, isGeometry) {
  return isGeometry ? "geometry" : `property ${what}`;
}

/**
 * @param {Edit} edit
 * @param {Feature | null} theirs what is there now
 * @returns {boolean} whether the two changes can be put together by property
 */
export function canMerge({ op, base, feature }, theirs) {
  return op === "replace" && Boolean(base && feature && theirs);
}

/**
 * @param {Edit} edit one that can be merged
 * @param {Feature} theirs
 * @returns {{what: string, isGeometry: boolean}[]} what both changed, and not to the same
 */
export function bothChanged({ base, feature }, theirs) {
  const [mine, other] = [changes(base, feature), changes(base, theirs)];
  const differ = changes(feature, theirs);
  const both = [...mine].filter((key) => other.has(key) && differ.has(key));
  return both.map((key) => ({
    what: key.replace(/^property /, ""),
    isGeometry: key === "geometry",
  }));
}

/**
 * @param {Edit} edit one that can be merged
 * @param {Feature} theirs
 * @param {(what: string, isGeometry: boolean) => Side} choose for what both changed
 * @returns {Edit | null} the edit that makes both changes; null if theirs has all of them
 */
export function merged(edit, theirs, choose) {
  const { base, feature } = edit;
  const conflicts = new Map(
    bothChanged(edit, theirs).map(({ what, isGeometry }) =>
      [keyOf(what, isGeometry), choose(what, isGeometry)],
    ),
  );
  const other = changes(base, theirs);
  const sideOf = (key) => conflicts.get(key) ?? (other.has(key) ? "theirs" : "mine");
  const from = (key) => (sideOf(key) === "mine" ? feature : theirs);
  const names = new Set(
    [theirs, feature].flatMap(({ properties }) => Object.keys(properties ?? {})),
  );
  const kept = [...names].flatMap((name) => {
    const properties = from(keyOf(name, false)).properties ?? {};
    return Object.hasOwn(properties, name) ? [[name, properties[name]]] : [];
  });
  const isNull = feature.properties === null && theirs.properties === null;
  /** @type {Feature} */
  const both = {
    ...feature,
    geometry: from("geometry").geometry,
    properties: kept.length === 0 && isNull ? null : Object.fromEntries(kept),
  };
  return isSame(both, theirs) ? null : { ...edit, feature: both, base: theirs };
}

/**
 * Puts the edits of a batch together with what others changed, if the user need not choose.
 * @param {Edit[]} edits
 * @param {import("./queue.js").Difference[]} found the edits whose feature others changed
 * @returns {{edits: Edit[], differences: import("./queue.js").Difference[]}} what is left to choose
 */
export function mergedBatch(edits, found) {
  const theirsOf = new Map(found.map(({ index, theirs }) => [index, theirs]));
  /** @type {{edits: Edit[], differences: import("./queue.js").Difference[]}} */
  const left = { edits: [], differences: [] };
  edits.forEach((edit, index) => {
    const theirs = theirsOf.get(index);
    const isAsked =
      theirsOf.has(index) && !(canMerge(edit, theirs) && bothChanged(edit, theirs).length === 0);
    if (isAsked) left.differences.push({ index: left.edits.length, theirs });
    const isMerged = theirsOf.has(index) && !isAsked;
    const kept = isMerged ? merged(edit, theirs, () => "mine") : edit;
    if (kept) left.edits.push(kept);
  });
  return left;
}
