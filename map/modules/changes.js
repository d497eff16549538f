/**
 * @file What others changed since the state that is shown: the batches that the server accepted
 * after it (`GET /changes`), and which features these changed. If that cannot be known for certain,
 * or is too much, the view is requested again.
 *
 * @typedef {import("./feature.js").Feature} Feature
 * @typedef {{serial: number, key: string, edits: any[]}} Line an accepted batch
 * @typedef {{collection: string, id: string, feature: Feature | null}} Change what has become of a
 *   feature; null if it was deleted
 * @typedef {{serial: number, key: string}} Known the state that is shown, and the key of its last
 *   batch; no text as long as that is not known
 * @typedef {{known: Known, changes: Change[], isOpened: boolean}} News the state that was reached,
 *   the features that were changed, and whether a collection was opened
 */
import { bare, nameOf } from "./feature.js";
import { readJson } from "./json.js";

/** The most batches that are followed one by one, and the most features. */
const MOST_LINES = 100;
const MOST_CHANGES = 1000;

/**
 * @param {string} text lines of a serial, a tab and a batch, as the server writes them
 * @returns {Line[]} it throws a SyntaxError if there is something else
 */
export function linesOf(text) {
  const lines = text.split("\n");
  if (lines.pop() !== "") throw new SyntaxError("a line is cut");
  return lines.map((line) => {
    const [, serial, batch] = /^(\d+)\t(.*)$/.exec(line) ?? [];
    if (serial === undefined) throw new SyntaxError("a line has no serial");
    const { key, edits } = readJson(batch);
    return { serial: Number(serial), key, edits };
  });
}

/**
 * @param {string} text
 * @returns {Line[] | null} null if it has something else: another server answered
 */
function readLines(text) {
  try {
    return linesOf(text);
  } catch {
    return null;
  }
}

/**
 * @param {Line[]} lines
 * @returns {Change[]} what has become of each feature at last
 */
export function changesOf(lines) {
  /** @type {Map<string, Change>} */
  const last = new Map();
  for (const { op, collection, id, feature } of lines.flatMap(({ edits }) => edits)) {
    if (op === "open") continue;
    const change =
      op === "delete"
        ? { collection, id: String(id), feature: null }
        : { collection, id: String(feature.id), feature: bare(feature) };
    last.set(nameOf(collection, change.id), change);
  }
  return [...last.values()];
}

/**
 * Reads what is new. The last batch of the state that is known is requested with it: if that is
 * another one now, the town has another history, for example that of an older copy.
 * @param {Known} known
 * @param {(after: number, shown: number, limit: number) =>
 *   Promise<{text: string, serial: number | null} | "same" | null>} read gets the lines after a
 *   serial, unless the state is still the one that is shown; null if it does not get them
 * @returns {Promise<News | "same" | null>} null if the view has to be requested again
 */
export async function readNews({ serial, key }, read) {
  const after = Math.max(0, serial - 1);
  const answer = await read(after, serial, MOST_LINES + 1);
  if (answer === null) return null;
  if (answer === "same") return "same";
  const lines = readLines(answer.text);
  if (lines === null) return null;
  if (serial > 0) {
    const first = lines.shift();
    const isSame = first?.serial === serial && (key === "" || first.key === key);
    if (!isSame) return null;
  }
  const isInOrder = lines.every((line, place) => line.serial === serial + place + 1);
  const last = lines.at(-1) ?? { serial, key };
  // If there is too much, an answer is cut before the state that it is of.
  const isTagged = answer.serial !== null;
  const isWhole = isTagged ? last.serial === answer.serial : lines.length < MOST_LINES;
  if (!isInOrder || !isWhole) return null;
  const changes = changesOf(lines);
  if (changes.length > MOST_CHANGES) return null;
  const isOpened = lines.some(({ edits }) => edits.some(({ op }) => op === "open"));
  return { known: { serial: last.serial, key: last.key }, changes, isOpened };
}
