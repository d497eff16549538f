/**
 * @file What is still to come of each feature: the edits in the queue and in the basket, the last
 * one counts.
 *
 * @typedef {import("./basket.js").Edit} Edit
 * @typedef {"basket" | "waiting" | "differs" | "refused"} Mark
 * @typedef {{edit: Edit, mark: Mark}} Pending
 */
import { readBasket, readSteps } from "./basket.js";
import { nameOf } from "./feature.js";
import { readQueue } from "./queue.js";

/**
 * @param {import("./queue.js").Batch} batch
 * @param {number} index
 * @returns {Mark} how an edit of the batch is marked on the map
 */
export function markOf({ state, refusal, differences }, index) {
  if (state === "refused" && refusal.place === index + 1) return "refused";
  if (state === "refused" && !refusal.place) return "refused";
  if (state === "differs" && differences.some((it) => it.index === index)) return "differs";
  return "waiting";
}

/**
 * @param {ReadonlyMap<string, Pending>} pending
 * @returns {Iterable<import("./search.js").Candidate>} the features as they are to be
 */
export function* pendingFeatures(pending) {
  for (const { edit } of pending.values()) {
    if (edit.feature) yield { collection: edit.collection, feature: edit.feature };
  }
}

/**
 * @returns {Promise<{pending: Map<string, Pending>, basket: Edit[], queue:
 *   import("./queue.js").Batch[], steps: {canUndo: boolean, canRedo: boolean}}>}
 */
export async function readPending() {
  const [queue, basket, steps] = await Promise.all([readQueue(), readBasket(), readSteps()]);
  const pending = new Map();
  for (const batch of queue) {
    batch.edits.forEach((edit, index) => {
      if (edit.op === "open") return;
      pending.set(nameOf(edit.collection, edit.id), { edit, mark: markOf(batch, index) });
    });
  }
  for (const edit of basket) {
    const name = nameOf(edit.collection, edit.id);
    const before = pending.get(name)?.mark;
    const mark = before === "refused" || before === "differs" ? before : "basket";
    pending.set(name, { edit, mark });
  }
  return { pending, basket, queue, steps };
}
