/**
 * @file What others changed. Each feature that a batch replaces or deletes is read again before the
 * first try of the batch and compared with the copy that was edited. What only one side changed is
 * merged (`merging.js`); the user is asked about the rest.
 *
 * If the server says which state it shows, all features are compared as they are in one state, and
 * the batch is sent under the condition that this is still the state. If it is not, nothing was
 * acted on, and the batch is compared again. A retry under the same key has the same condition: if
 * the lost answer was that the batch was accepted, it is given again; if it was not, nobody is
 * overwritten.
 *
 * A server without conditions compares nothing. Then a retry is not compared either, since its own
 * edits might appear as another's. Between the comparison and the batch, and between a try whose
 * answer was lost and its repetition, another may write. So a first try is made only right after a
 * comparison that the server answered; without a network neither happens.
 *
 * @typedef {import("./basket.js").Edit} Edit
 * @typedef {import("./queue.js").Difference} Difference
 */
import { readChanges, readFeature } from "./api.js";
import { readNews } from "./changes.js";
import { isSame, nameOf } from "./feature.js";
import { canMerge, merged } from "./merging.js";
import { newestOf, oldestOf } from "./serials.js";

const AT_ONCE = 6;
/** How often features are read again because the state changed while they were read. */
const MOST_ROUNDS = 4;

/** While features were read, others got on all the time. */
export class Overtaken extends Error {}

/**
 * @typedef {{feature: import("./feature.js").Feature | null, serial: number | null}} Theirs
 * @typedef {{edit: Edit, index: number}} Placed an edit and its place in the batch
 * @typedef {(collection: string, id: string) => Promise<Theirs>} Read
 * @typedef {(serial: number) => Promise<import("./changes.js").News | "same" | null>} Since
 */

/**
 * Reads the features of edits.
 * @param {Placed[]} edits
 * @param {Map<number, Theirs>} found gets what is there, by the places of the edits
 * @param {Read} read
 */
async function readAll(edits, found, read) {
  const left = [...edits];
  const work = async () => {
    for (let next = left.shift(); next; next = left.shift()) {
      const { edit, index } = next;
      found.set(index, await read(edit.collection, edit.id));
    }
  };
  await Promise.all(Array.from({ length: AT_ONCE }, work));
}

/**
 * @param {Placed[]} edits
 * @param {Map<number, Theirs>} found
 * @returns {Placed[]} those whose feature was read in an older state than others. One that is not
 *   there has no serial, and is a difference in any case.
 */
function olderOf(edits, found) {
  const newest = newestOf([...found.values()].map((it) => it.serial));
  const isOlder = ({ feature, serial }) => feature !== null && serial !== newest;
  return edits.filter(({ index }) => isOlder(found.get(index)));
}

/** @type {Read} a feature as it is now, and not as a follower has it */
function readNow(collection, id) {
  return readFeature(collection, id, true);
}

/** @type {Since} what was changed after a state, if the server says that */
function newsSince(serial) {
  return readNews({ serial, key: "" }, async (...asked) => {
    const answer = await readChanges(...asked, { isExact: true });
    return answer === "absent" ? null : answer;
  });
}

/**
 * Brings features that were read in several states to the one that is reached by what was changed
 * since the oldest of them.
 * @param {Placed[]} edits
 * @param {Map<number, Theirs>} found
 * @param {Since} since
 * @returns {Promise<boolean>} false if the server does not say what was changed
 */
async function caughtUp(edits, found, since) {
  const there = [...found.values()].filter(({ feature }) => feature !== null);
  const oldest = oldestOf(there.map((it) => it.serial));
  const news = oldest === null ? null : await since(oldest);
  if (news === null || news === "same") return false;
  const { serial } = news.known;
  if (serial < newestOf(there.map((it) => it.serial))) return false;
  const changes = new Map(news.changes.map((it) => [nameOf(it.collection, it.id), it]));
  for (const { edit, index } of edits) {
    const change = changes.get(nameOf(edit.collection, edit.id));
    const { feature } = change ?? found.get(index);
    found.set(index, { feature, serial: feature && serial });
  }
  return true;
}

/**
 * Compares a batch with what is there. It throws `Overtaken` if the features cannot be had as they
 * are in one state.
 * @param {Edit[]} edits
 * @param {Read} [read]
 * @param {Since} [since]
 * @returns {Promise<{differences: Difference[], serial: number | null}>} the edits whose feature is
 *   not as the copy that was edited; and the serial of the state that was compared, null if the
 *   server does not say it, or if nothing was compared
 */
export async function compared(edits, read = readNow, since = newsSince) {
  const placed = edits.map((edit, index) => ({ edit, index }));
  const all = placed.filter(({ edit }) => edit.op === "replace" || edit.op === "delete");
  /** @type {Map<number, Theirs>} */
  const found = new Map();
  let left = all;
  for (let round = 0; left.length > 0; round += 1) {
    if (round > MOST_ROUNDS) throw new Overtaken();
    await readAll(left, found, read);
    left = olderOf(all, found);
    if (left.length > 1 && (await caughtUp(all, found, since))) left = olderOf(all, found);
  }
  const theirsOf = ({ index }) => ({ index, theirs: found.get(index).feature });
  const isOther = ({ edit, index }) => !isSame(found.get(index).feature, edit.base);
  const serial = newestOf([...found.values()].map((it) => it.serial));
  return { differences: all.filter(isOther).map(theirsOf), serial };
}

/**
 * @param {Edit} edit
 * @param {import("./feature.js").Feature | null} theirs
 * @returns {Edit | null} the edit that does the same to what is there now; null if nothing is
 *   left to do
 */
export function keptMine(edit, theirs) {
  if (edit.op === "delete") return theirs && { ...edit, base: theirs };
  return { ...edit, op: theirs ? "replace" : "insert", base: theirs };
}

/**
 * @typedef {import("./merging.js").Side} Side
 * @typedef {Side | ((what: string, isGeometry: boolean) => Side)} Decision for what both changed
 */

/**
 * @param {Edit} edit
 * @param {import("./feature.js").Feature | null} theirs
 * @param {Decision} decision
 * @returns {Edit | null} what the edit is then; null if nothing is left to do
 */
function decidedEdit(edit, theirs, decision) {
  if (canMerge(edit, theirs)) {
    return merged(edit, theirs, typeof decision === "function" ? decision : () => decision);
  }
  return decision === "mine" ? keptMine(edit, theirs) : null;
}

/**
 * The edits of a batch after the user decided.
 * @param {Edit[]} edits
 * @param {Difference[]} differences
 * @param {Decision[]} decisions one for each difference
 * @returns {Edit[]}
 */
export function decided(edits, differences, decisions) {
  const chosen = new Map(
    differences.map((it, place) => [it.index, { ...it, decision: decisions[place] }]),
  );
  return edits.flatMap((edit, index) => {
    const difference = chosen.get(index);
    if (!difference) return [edit];
    const kept = decidedEdit(edit, difference.theirs, difference.decision);
    return kept ? [kept] : [];
  });
}
