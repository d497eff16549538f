/**
 * @file The basket: edits that were made and not yet saved, at most one for each feature. What was
 * done in it since the last save can be undone, by any tab.
 *
 * @typedef {import("./feature.js").Feature} Feature
 * @typedef {object} Edit
 * @property {"open" | "insert" | "replace" | "delete"} op
 * @property {string} collection
 * @property {string} id no text if a collection is opened
 * @property {Feature | null} feature the feature as it is to be; null if it is deleted
 * @property {Feature | null} base the copy that was edited; null if the feature is new
 * @property {string} [title] of a collection that is opened
 * @property {string} [time] its time property; no text if it has none
 */
import { changed } from "./channel.js";
import { isSame, textOf } from "./feature.js";
import { emptyHistory, takenAgain, takenBack, withStep } from "./history.js";
import { readAll, readSetting, result, transact } from "./store.js";

/** The setting that has the steps of the basket: its edits of a feature before and after each. */
const STEPS = "basket steps";

/**
 * Two edits of one feature, one after the other, as one.
 * @param {Edit | undefined} first
 * @param {Edit} second
 * @returns {Edit | null} null if nothing is left to do
 */
export function joined(first, second) {
  if (!first) return isIdle(second) ? null : second;
  const { base } = first;
  const { feature } = second;
  if (!base && !feature) return null;
  const op = !base ? "insert" : feature ? "replace" : "delete";
  /** @type {Edit} */
  const edit = { ...second, op, base, feature };
  return isIdle(edit) ? null : edit;
}

/**
 * @param {Edit} edit
 * @returns {boolean} whether it would replace a feature by itself
 */
function isIdle({ op, feature, base }) {
  return op === "replace" && isSame(feature, base);
}

/**
 * @returns {Promise<Edit[]>} the edits in the basket, in the order in which they were first made
 */
export async function readBasket() {
  const edits = await readAll("basket");
  return edits.sort((one, other) => one.made - other.made);
}

/**
 * @param {IDBObjectStore} basket
 * @param {Edit} edit
 */
export async function putInto(basket, edit) {
  const key = [edit.collection, edit.id];
  const first = await result(basket.get(key));
  const edited = joined(first, edit);
  if (edited) await result(basket.put({ ...edited, made: first?.made ?? Date.now() }));
  else await result(basket.delete(key));
}

/**
 * @param {IDBObjectStore} basket
 * @param {IDBObjectStore} queue
 * @param {Edit} edit
 * @returns {Promise<Edit | undefined>} the last edit of the same feature that is still to come
 */
async function pendingEdit(basket, queue, { collection, id }) {
  const isSameFeature = (it) => it.collection === collection && it.id === id;
  const batches = await result(queue.getAll());
  const queued = batches.flatMap(({ edits }) => edits).findLast(isSameFeature);
  return (await result(basket.get([collection, id]))) ?? queued;
}

/**
 * @param {Edit | null | undefined} edit
 * @returns {string} a text that two edits of a feature share if they do the same
 */
export function editKey(edit) {
  return edit ? `${edit.op} ${textOf(edit.feature)}` : "";
}

/**
 * Puts an edit into the basket, over one of the same feature that is there.
 * @param {Edit} edit
 * @param {string} [known] the key of the edit that the user saw there; any one if it is left out
 * @returns {Promise<Edit | null>} null if it was put in; else the edit that another tab made, and
 *   nothing was changed
 */
export async function putInBasket(edit, known) {
  const tables = ["basket", "queue", "settings"];
  const other = await transact(tables, "readwrite", async (basket, queue, settings) => {
    const found = known === undefined ? undefined : await pendingEdit(basket, queue, edit);
    if (found && editKey(found) !== known) return found;
    await noted(basket, settings, edit, () => putInto(basket, edit));
    return null;
  });
  if (!other) changed("basket");
  return other;
}

/**
 * Acts on the edit of a feature, and notes that as a step.
 * @param {IDBObjectStore} basket
 * @param {IDBObjectStore} settings
 * @param {Pick<Edit, "collection" | "id">} feature
 * @param {() => Promise<any>} act
 */
async function noted(basket, settings, { collection, id }, act) {
  const read = async () => (await result(basket.get([collection, id]))) ?? null;
  const before = await read();
  await act();
  const after = await read();
  if (editKey(before) === editKey(after)) return;
  const steps = (await result(settings.get(STEPS))) ?? emptyHistory();
  await result(settings.put(withStep(steps, before, after), STEPS));
}

/**
 * @param {(steps: import("./history.js").History<Edit | null>) =>
 *   {history: import("./history.js").History<Edit | null>,
 *   step: import("./history.js").Step<Edit | null> | null}} take
 * @param {"before" | "after"} side of the step, as which the basket is to be
 * @returns {Promise<Edit | null>} an edit of the feature that the step was of; null without a step
 */
async function walk(take, side) {
  const step = await transact(["basket", "settings"], "readwrite", async (basket, settings) => {
    const { history, step } = take((await result(settings.get(STEPS))) ?? emptyHistory());
    if (!step) return null;
    const { collection, id } = step.before ?? step.after;
    const edit = step[side];
    if (edit) await result(basket.put(edit));
    else await result(basket.delete([collection, id]));
    await result(settings.put(history, STEPS));
    return step;
  });
  if (step) changed("basket");
  return step && (step.before ?? step.after);
}

/** Takes the last step of the basket back. */
export function undoInBasket() {
  return walk(takenBack, "before");
}

/** Takes the step of the basket again that was taken back last. */
export function redoInBasket() {
  return walk(takenAgain, "after");
}

/** @returns {Promise<{canUndo: boolean, canRedo: boolean}>} which steps the basket has */
export async function readSteps() {
  const { done, undone } = (await readSetting(STEPS)) ?? emptyHistory();
  return { canUndo: done.length > 0, canRedo: undone.length > 0 };
}

/**
 * The edits went elsewhere: no step of theirs can be taken back.
 * @param {IDBObjectStore} settings
 */
export async function forgetSteps(settings) {
  await result(settings.delete(STEPS));
}

/**
 * Takes an edit out of the basket: the feature is again as it was.
 * @param {Pick<Edit, "collection" | "id">} edit
 */
export async function takeOutOfBasket({ collection, id }) {
  await transact(["basket", "settings"], "readwrite", (basket, settings) =>
    noted(basket, settings, { collection, id }, () => result(basket.delete([collection, id]))),
  );
  changed("basket");
}
