/**
 * @file The queue: batches that were saved and are not yet acknowledged, in the order in which they
 * are sent.
 *
 * A batch is sent under its key, as the same bytes, until the server's own answer comes. It leaves
 * the queue in the transaction that stores its acknowledgement. The bytes change only under a new
 * key, and only if no try under the old key may still act.
 *
 * @typedef {import("./basket.js").Edit} Edit
 * @typedef {{status: number, code: string, description: string, place?: number, cause?: string}}
 *   Refused
 * @typedef {{index: number, theirs: import("./feature.js").Feature | null}} Difference
 * @typedef {object} Batch
 * @property {number} number its place in the queue
 * @property {string} key
 * @property {string} body the bytes that are sent
 * @property {Edit[]} edits
 * @property {number} saved when it was saved
 * @property {"waiting" | "refused" | "differs"} state
 * @property {number} tries how often it was sent under this key
 * @property {number} unanswered how many of these tries may have acted without an answer that came
 * @property {string} problem why the last try came to nothing
 * @property {boolean} held it waits for the user, who has to sign in or to say which town it is for
 * @property {boolean} [isDoubtful] whether the server may be of another town
 * @property {Refused | null} refusal
 * @property {Difference[]} differences what others changed since the copies were taken
 * @property {number | null} [compared] the serial of the state that it was compared with before its
 *   first try, and of the only state that it may change; null if the server gives none
 * @property {number} [overtaken] how often others came first since, one after the other
 */
import { note } from "./answers.js";
import { forgetSteps, putInto } from "./basket.js";
import { batchText, cut, newKey } from "./batch.js";
import { changed } from "./channel.js";
import { nameOf } from "./feature.js";
import { readAll, result, transact } from "./store.js";

/**
 * @param {string} user
 * @param {Edit[]} edits
 * @returns {Omit<Batch, "number" | "saved">} a batch that was never sent
 */
function newBatch(user, edits) {
  const key = newKey(user);
  return {
    key,
    body: batchText(key, edits),
    edits,
    state: "waiting",
    tries: 0,
    unanswered: 0,
    problem: "",
    held: false,
    isDoubtful: false,
    refusal: null,
    differences: [],
    compared: null,
    overtaken: 0,
  };
}

/**
 * Moves the basket into the queue, in one transaction: an edit is in one of them at any time.
 * @param {string} user
 * @returns {Promise<number>} how many batches it made
 */
export async function saveBasket(user) {
  const tables = ["basket", "queue", "settings"];
  const made = await transact(tables, "readwrite", async (basket, queue, settings) => {
    const edits = (await result(basket.getAll())).sort((one, other) => one.made - other.made);
    const parts = cut(edits);
    for (const part of parts) {
      await result(queue.add({ ...newBatch(user, part), saved: Date.now() }));
    }
    await result(basket.clear());
    await forgetSteps(settings);
    return parts.length;
  });
  changed("queue", "basket");
  return made;
}

/**
 * Puts the opening of a collection into the queue, as a batch of its own.
 * @param {string} user
 * @param {import("./opening.js").Opening} opening
 */
export async function saveOpening(user, { collection, title, time }) {
  /** @type {Edit} */
  const edit = { op: "open", collection, id: "", title, time, feature: null, base: null };
  const batch = { ...newBatch(user, [edit]), saved: Date.now() };
  await transact(["queue"], "readwrite", (queue) => result(queue.add(batch)));
  changed("queue");
}

/**
 * @param {Batch} batch
 * @returns {boolean} whether it opens a collection
 */
export function isOpening({ edits }) {
  return edits.some(({ op }) => op === "open");
}

/**
 * @returns {Promise<Batch[]>} all batches that wait, the next one first
 */
export function readQueue() {
  return readAll("queue");
}

/**
 * @param {Batch} batch
 * @returns {boolean} whether no try of it may still act, so that its edits may change under a new
 *   key
 */
export function mayChange({ state, held, tries, unanswered }) {
  return tries === 0 || (unanswered === 0 && (held || state !== "waiting"));
}

/**
 * Changes the row of a batch, if it still has that key.
 * @param {Batch} batch as it was read
 * @param {(row: Batch) => Partial<Batch> | null} act what changes; null if nothing does
 * @returns {Promise<Batch | null>} the batch as it is now; null if it was not changed
 */
export async function update(batch, act) {
  const row = await transact(["queue"], "readwrite", async (queue) => {
    const found = await result(queue.get(batch.number));
    const changes = found?.key === batch.key ? act(found) : null;
    if (!changes) return null;
    await result(queue.put({ ...found, ...changes }));
    return { ...found, ...changes };
  });
  if (row) changed("queue");
  return row;
}

/**
 * Takes a batch out of the queue and stores what became of it, in one transaction. What was
 * accepted is then what was last seen of its features.
 * @param {Batch} batch as it was read
 * @param {{outcome: "accepted" | "dropped" | "there", serial?: number}} record
 * @param {(row: Batch) => boolean} [isRight] whether it may leave, called within the transaction
 * @returns {Promise<boolean>} whether it left
 */
export async function leave(batch, record, isRight = () => true) {
  const tables = ["queue", "answers", "features", "settings"];
  const left = await transact(tables, "readwrite", async (queue, answers, features, settings) => {
    const found = await result(queue.get(batch.number));
    const isThere = found?.key === batch.key;
    // What was dropped while it was being sent, and accepted all the same, is recorded as accepted.
    if (record.outcome !== "accepted" && !(isThere && isRight(found))) return false;
    const { key, edits } = batch;
    const time = Date.now();
    await note(answers, settings, { key, edits, time, ...record });
    if (record.outcome === "accepted") {
      for (const { op, collection, id, feature } of edits) {
        if (op === "open") continue;
        if (!feature) features.delete([collection, id]);
        else {
          const kept = (await result(features.get([collection, id])))?.kept ?? false;
          features.put({ collection, id, feature, seen: time, kept });
        }
      }
    }
    if (isThere) await result(queue.delete(batch.number));
    return true;
  });
  if (left) changed("queue", "view");
  return left;
}

/**
 * Gives a batch other edits, under a new key, at its place in the queue. Without edits it leaves.
 * @param {Batch} batch as it was read
 * @param {Edit[]} edits
 * @returns {Promise<boolean>} whether it was changed
 */
export async function changeEdits(batch, edits) {
  if (edits.length === 0) return leave(batch, { outcome: "dropped" }, mayChange);
  const user = batch.key.split(":")[0];
  const row = await update(batch, (found) => (mayChange(found) ? newBatch(user, edits) : null));
  return row !== null;
}

/**
 * Gives a batch that was never tried the edits that go with what others changed, under a new key.
 * What is left for the user to choose stays with it.
 * @param {Batch} batch as it was read
 * @param {Edit[]} edits
 * @param {Difference[]} differences
 */
export async function rebase(batch, edits, differences) {
  if (edits.length === 0) return leave(batch, { outcome: "there" }, mayChange);
  const user = batch.key.split(":")[0];
  const state = differences.length > 0 ? "differs" : "waiting";
  const row = await update(batch, (found) => {
    const { overtaken } = found;
    return mayChange(found) ? { ...newBatch(user, edits), state, differences, overtaken } : null;
  });
  return row !== null;
}

/**
 * @param {Batch[]} queue
 * @returns {Batch | null} the batch that is sent next. One that the user has to decide about holds
 *   up those that touch its features, and no others; a refused one holds up all.
 */
export function nextToSend(queue) {
  const held = new Set();
  for (const batch of queue) {
    const names = batch.edits.map(({ collection, id }) => nameOf(collection, id));
    const isHeld = batch.state === "differs" || names.some((name) => held.has(name));
    if (!isHeld) return batch.state === "waiting" && !batch.held ? batch : null;
    for (const name of names) held.add(name);
  }
  return null;
}

/**
 * Puts the edits of a batch back into the basket, under the edits that were made there since.
 * @param {Batch} batch as it was read
 * @returns {Promise<boolean>} whether it went back
 */
export async function backToBasket(batch) {
  const tables = ["queue", "basket", "settings"];
  const gone = await transact(tables, "readwrite", async (queue, basket, settings) => {
    const found = await result(queue.get(batch.number));
    if (found?.key !== batch.key || !mayChange(found)) return false;
    for (const edit of batch.edits) {
      const later = await result(basket.get([edit.collection, edit.id]));
      await result(basket.delete([edit.collection, edit.id]));
      await putInto(basket, edit);
      if (later) await putInto(basket, later);
    }
    await result(queue.delete(batch.number));
    await forgetSteps(settings);
    return true;
  });
  if (gone) changed("queue", "basket", "send");
  return gone;
}

/**
 * @param {Batch} batch
 * @param {Batch[]} queue
 * @returns {boolean} whether a later batch edits one of its features
 */
export function isBuiltUpon(batch, queue) {
  const names = new Set(batch.edits.map(({ collection, id }) => `${collection}/${id}`));
  return queue.some(
    ({ number, edits }) =>
      number > batch.number && edits.some(({ collection, id }) => names.has(`${collection}/${id}`)),
  );
}

/**
 * Lets a refused batch be sent again as it is: what it needs may be there now.
 * @param {Batch} batch as it was read
 */
export function sendAgain(batch) {
  const fresh = { held: false, isDoubtful: false, refusal: null, differences: [], problem: "" };
  return update(batch, (found) => ({
    ...fresh,
    state: "waiting",
    tries: mayChange(found) ? 0 : found.tries,
  }));
}
