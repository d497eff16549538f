/**
 * @file The sender: one over all tabs (Web Locks). It sends the first batch of the queue until the
 * server itself answers, and then the next. A batch that the user has to decide about lets those
 * pass that touch other features.
 *
 * @typedef {import("./queue.js").Batch} Batch
 */
import { NoAnswer, Refusal, postBatch } from "./api.js";
import { onChange } from "./channel.js";
import { Overtaken, compared } from "./conflicts.js";
import { mergedBatch } from "./merging.js";
import { isLocked, lockedText, meaningOf } from "./outcome.js";
import { leave, nextToSend, readQueue, rebase, update } from "./queue.js";
import { whyNotHere } from "./recognition.js";
import { currentDatabase } from "./store.js";
import { crowdedText, pauseAfter } from "./turns.js";

const FIRST_PAUSE = 1;
const LONGEST_PAUSE = 60;

/**
 * @param {Batch} batch
 * @returns {Promise<import("./outcome.js").Outcome>} the outcome of one try
 */
async function post(batch) {
  try {
    return meaningOf(batch.key, await postBatch(batch.body, batch.compared));
  } catch (fault) {
    if (!(fault instanceof NoAnswer)) throw fault;
    return { kind: "again", problem: fault.message, mayHaveActed: true };
  }
}

/**
 * Compares before the first try. What others changed is merged into the batch, as far as that goes.
 * @param {Batch} batch
 * @returns {Promise<{serial: number | null} | "differs" | "overtaken" | {problem: string}>} the
 *   serial of the state in which nothing differs, or why it could not compare
 */
async function compare(batch) {
  try {
    const { differences, serial } = await compared(batch.edits);
    if (differences.length === 0) return { serial };
    const left = mergedBatch(batch.edits, differences);
    await rebase(batch, left.edits, left.differences);
    return "differs";
  } catch (fault) {
    if (fault instanceof Overtaken) return "overtaken";
    if (fault instanceof NoAnswer || fault instanceof Refusal) return { problem: fault.message };
    throw fault;
  }
}

/**
 * Others came first, and nothing was acted on: the batch is compared again before its next try.
 * No earlier try can act any more, since the state that it was for does not come again.
 * @param {Batch} batch
 * @returns {Promise<number>} the seconds until then
 */
async function giveWay(batch) {
  const row = await update(batch, (found) => {
    const overtaken = (found.overtaken ?? 0) + 1;
    const fresh = { tries: 0, unanswered: 0, compared: null };
    return { ...fresh, overtaken, problem: crowdedText(overtaken) };
  });
  return row ? pauseAfter(row.overtaken) : 0;
}

/**
 * Checks whether the town that is served is the one that batches here were made for.
 * @returns {Promise<Partial<Batch> | null>} why nothing is sent; null if it may be
 */
async function obstacle() {
  try {
    const why = await whyNotHere();
    return why && { ...why, held: why.isDoubtful };
  } catch (fault) {
    if (!(fault instanceof NoAnswer) && !(fault instanceof Refusal)) throw fault;
    const isHeld = fault instanceof NoAnswer && isLocked(fault.status);
    return { problem: isHeld ? lockedText(fault.status) : fault.message, held: isHeld };
  }
}

/**
 * Makes one try, and stores what came of it before it goes on.
 * @param {Batch} batch
 * @returns {Promise<number | null>} the seconds until the next try; null if these are to grow
 */
async function attempt(batch) {
  const why = await obstacle();
  if (why) {
    await update(batch, () => why);
    return why.held ? 0 : null;
  }
  const isFirst = batch.tries === 0;
  const seen = isFirst ? await compare(batch) : { serial: batch.compared ?? null };
  if (seen === "differs") return 0;
  if (seen === "overtaken") return giveWay(batch);
  if ("problem" in seen) {
    await update(batch, () => seen);
    return null;
  }
  // The count is stored before the request leaves: a tab that is closed now has made a try.
  const sending = await update(batch, ({ state, held, tries, unanswered }) => {
    const counts = { tries: tries + 1, unanswered: unanswered + 1 };
    return state === "waiting" && !held ? { ...counts, compared: seen.serial } : null;
  });
  return sending ? take(sending, await post(sending)) : 0;
}

/**
 * Stores what came of a try.
 * @param {Batch} sending
 * @param {import("./outcome.js").Outcome} outcome
 * @returns {Promise<number | null>} the seconds until the next try; null if these are to grow
 */
async function take(sending, outcome) {
  if (outcome.kind === "accepted") {
    await leave(sending, { outcome: "accepted", serial: Number(outcome.answer.serial) });
    return 0;
  }
  if (outcome.kind === "overtaken") return giveWay(sending);
  if (outcome.kind === "refused") {
    // The server's own refusal says that no earlier try was accepted; that of nginx does not.
    const isOwn = outcome.refusal.code !== "413";
    const unanswered = isOwn ? 0 : sending.unanswered - 1;
    await update(
      sending,
      () => ({ state: "refused", refusal: outcome.refusal, unanswered, problem: "" }),
    );
    return 0;
  }
  const { problem } = outcome;
  const hasActed = outcome.kind === "again" && outcome.mayHaveActed;
  const unanswered = sending.unanswered - (hasActed ? 0 : 1);
  await update(sending, () => ({ problem, unanswered, held: outcome.kind === "held" }));
  return outcome.kind === "held" ? 0 : null;
}

/** Waits that a change of the queue, the network or the user may end. */
class Alarm {
  #rung = false;
  #ring = () => {};

  ring() {
    this.#rung = true;
    this.#ring();
  }

  /** What rang before is heard no more. */
  reset() {
    this.#rung = false;
  }

  /**
   * @param {number} seconds
   * @returns {Promise<void>} at the next ring since the reset, or after that number of seconds
   */
  wait(seconds) {
    return new Promise((resolve) => {
      if (this.#rung) return resolve();
      const timer = Number.isFinite(seconds) ? setTimeout(resolve, seconds * 1000) : 0;
      this.#ring = () => {
        clearTimeout(timer);
        resolve();
      };
    });
  }
}

/**
 * Sends for ever.
 * @param {Alarm} queueAlarm rings when the queue changed
 * @param {Alarm} sendAlarm rings when a try may do better than the one before
 */
async function sendAll(queueAlarm, sendAlarm) {
  let pause = FIRST_PAUSE;
  for (;;) {
    queueAlarm.reset();
    sendAlarm.reset();
    const batch = nextToSend(await readQueue());
    if (!batch) {
      await queueAlarm.wait(Infinity);
      continue;
    }
    const seconds = await attempt(batch);
    if (seconds !== 0) await sendAlarm.wait(seconds ?? pause);
    pause = seconds === null ? Math.min(LONGEST_PAUSE, pause * 2) : FIRST_PAUSE;
  }
}

/**
 * Waits until no other tab sends, and sends from then on. A batch that waited for the user is tried
 * once more.
 */
export function startSender() {
  const [queueAlarm, sendAlarm] = [new Alarm(), new Alarm()];
  onChange("queue", () => queueAlarm.ring());
  onChange("send", () => {
    queueAlarm.ring();
    sendAlarm.ring();
  });
  addEventListener("online", () => sendAlarm.ring());
  const send = async () => {
    const [first] = await readQueue();
    if (first?.held) await update(first, () => ({ held: false, isDoubtful: false }));
    await sendAll(queueAlarm, sendAlarm);
  };
  const stay = () =>
    navigator.locks.request(`${currentDatabase()}-sender`, send).catch((fault) => {
      console.error(fault);
      setTimeout(stay, LONGEST_PAUSE * 1000);
    });
  return stay();
}
