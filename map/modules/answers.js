/**
 * @file What became of batches: the records of those that left the queue.
 *
 * @typedef {import("./basket.js").Edit} Edit
 * @typedef {{number: number, key: string, edits: Edit[], time: number, outcome: string, serial?:
 *   number}} Answer
 */
import { readSetting, result, transact, writeSetting } from "./store.js";

/** How many records of what became of batches are kept, with their edits. */
const ANSWERS_KEPT = 200;
/** The setting that has the key of the last batch that was accepted, and when it was. */
const LAST_ACCEPTED = "last accepted";

/**
 * Notes what became of a batch, within a transaction.
 * @param {IDBObjectStore} answers
 * @param {IDBObjectStore} settings
 * @param {Omit<Answer, "number">} record
 */
export async function note(answers, settings, record) {
  const number = Number(await result(answers.add(record)));
  if (number > ANSWERS_KEPT) answers.delete(IDBKeyRange.upperBound(number - ANSWERS_KEPT));
  const { key, time, outcome } = record;
  if (outcome === "accepted") settings.put({ key, time }, LAST_ACCEPTED);
}

/**
 * @param {number} [after] the number of a record
 * @returns {Promise<Answer[]>} what became of batches after that record, the first one first
 */
export function readAnswers(after = 0) {
  const range = IDBKeyRange.lowerBound(after, true);
  return transact(["answers"], "readonly", (table) => result(table.getAll(range)));
}

/**
 * @returns {Promise<{key: string, time: number} | null>} the last batch that was accepted, as long
 *   as the server should know it
 */
export async function lastAccepted() {
  const noted = await readSetting(LAST_ACCEPTED);
  if (noted !== undefined) return noted;
  // Earlier versions of the page noted it with the other answers alone.
  const last = (await readAnswers()).findLast(({ outcome }) => outcome === "accepted");
  const found = last ? { key: last.key, time: last.time } : null;
  await writeSetting(LAST_ACCEPTED, found);
  return found;
}

/** What was accepted before is not queried any more: the user knows the town. */
export function forgetAccepted() {
  return writeSetting(LAST_ACCEPTED, null);
}
