/**
 * @file The panel of the queue: the batches that wait, why the first of them does, and what became
 * of others.
 */
import { readAnswers } from "./answers.js";
import { changed } from "./channel.js";
import { resolveDifferences } from "./differences_dialog.js";
import { askInDialog, button, element, renew } from "./element.js";
import { differences } from "./feature.js";
import { markOf } from "./pending.js";
import {
  backToBasket,
  changeEdits,
  isBuiltUpon,
  isOpening,
  leave,
  mayChange,
  nextToSend,
  sendAgain,
} from "./queue.js";
import { trustServer } from "./recognition.js";
import { countedEdits, editText } from "./texts.js";
import { clock } from "./time.js";
import { readOthers, setAside, takeUp } from "./towns.js";
import { isCrowded } from "./turns.js";
import { say } from "./words.js";

const SHOWN_ANSWERS = 10;
const SHOWN_EDITS = 50;

/**
 * Asks before a batch is dropped.
 * @param {import("./queue.js").Batch} batch
 */
async function drop(batch) {
  const uncertain = batch.unanswered > 0
    ? say("An answer to it was lost: the server may have taken it. Dropping does not undo that.")
    : "";
  const text = say("{count} will not be sent.", { count: countedEdits(batch.edits.length) });
  const answers = [
    { text: say("Drop the batch"), value: true, class: "danger" },
    { text: say("Keep it"), value: false },
  ];
  const content = [element("p", {}, `${uncertain} ${text}`)];
  if (!(await askInDialog(say("Drop this batch?"), content, answers))) return;
  await leave(batch, { outcome: "dropped" });
  changed("send");
}

/**
 * @param {import("./queue.js").Batch} batch
 * @param {import("./queue.js").Batch[]} queue
 */
async function takeBack(batch, queue) {
  if (!isBuiltUpon(batch, queue)) return backToBasket(batch);
  const text = say(
    "A later batch edits one of its features again. Change this batch here, or drop it.",
  );
  return askInDialog(
    say("It cannot go back"),
    [element("p", {}, text)],
    [{ text: say("Close"), value: true }],
  );
}

/**
 * Sends to the server that is there, although it may be of another town.
 * @param {import("./queue.js").Batch} batch
 */
async function sendHere(batch) {
  await trustServer();
  await sendAgain(batch);
  changed("send");
}

/**
 * @returns {Promise<HTMLElement[]>} what waits on this device for other towns of this address
 */
async function othersList() {
  const rows = (await readOthers()).map((town) => {
    const edits = countedEdits(town.waiting);
    const whose = town.name ? ` ${say("for {town}", { town: town.name })}` : "";
    return element(
      "li", { class: "edit" },
      element("div", {}, say(
        "{edits}{whose}, last shown {time}",
        { edits, whose, time: clock(town.used) },
      )),
      button(say("Open here"), () => takeUp(town), { class: "small" }),
    );
  });
  if (rows.length === 0) return [];
  const text =
    say(
      "They wait until their town is served at this address again. Open them if it is this " +
        "one, under another name or moved.",
    );
  return [
    element("h2", {}, say("Kept for other towns")),
    element("p", { class: "note" }, text),
    element("ul", { class: "others" }, ...rows),
  ];
}

/**
 * @param {import("./queue.js").Batch} batch
 * @param {boolean} isFirst
 * @returns {{text: string, problem: string}}
 */
function statusOf(batch, isFirst) {
  const { state, refusal, held, isDoubtful, problem } = batch;
  if (state === "refused") {
    const place = refusal.place ? ` (${say("edit {place}", { place: refusal.place })})` : "";
    const cause = refusal.cause ? `, ${refusal.cause}` : "";
    return { text: say(
      "Refused",
    ), problem: `${refusal.description} ${refusal.code}${cause}${place}` };
  }
  if (state === "differs") return { text: say("Another has changed the same"), problem: "" };
  if (isDoubtful) {
    const why = say(
      "Another town may be served at this address now, or an older copy of this one.",
    );
    return { text: say("Which town is it for?"), problem: `${problem} ${why}` };
  }
  if (held) return { text: say("Waits for you"), problem };
  if (!isFirst) return { text: say("Waits for the batch before it"), problem: "" };
  return { text: problem ? say("Waits and is tried again") : say("Is being sent"), problem };
}

export class QueuePanel {
  #panel;
  #listener;

  /**
   * @param {HTMLElement} panel
   * @param {{onSelect: (collection: string, id: string) => void,
   *   onChange: (batch: import("./queue.js").Batch, index: number) => void}} listener
   */
  constructor(panel, listener) {
    this.#panel = panel;
    this.#listener = listener;
  }

  /** @param {import("./queue.js").Batch[]} queue */
  async show(queue) {
    const answers = (await readAnswers()).reverse().slice(0, SHOWN_ANSWERS);
    const next = nextToSend(queue);
    const batches = queue.map((batch, place) =>
      this.#batch(batch, next ? batch === next : place === 0, queue),
    );
    const past = answers.map(({ key, edits, time, outcome, serial }) => {
      const whats = { there: say("made by another already"), dropped: say("dropped") };
      const accepted = say("accepted as number {serial}", { serial });
      const what = outcome === "accepted" ? accepted : whats[outcome];
      return element("li", {}, `${clock(time)}: ${countedEdits(edits.length)} ${what}`,
        element("span", { class: "key" }, key));
    });
    renew(
      this.#panel,
      element("h2", {}, say("Queue")),
      element("p", { class: "note" }, queue.length
        ? say("Batches are sent in this order. Each acts once, however often it is tried.")
        : say("Nothing waits: all that was saved is with the server.")),
      element("ol", { class: "batches" }, ...batches),
      past.length ? element("h2", {}, say("Done")) : "",
      past.length ? element("ul", { class: "answers" }, ...past) : "",
      ...(await othersList()),
    );
  }

  #batch(batch, isFirst, queue) {
    const { text, problem } = statusOf(batch, isFirst);
    const shown = batch.edits.slice(0, SHOWN_EDITS);
    const edits = shown.map((edit, index) => this.#edit(batch, edit, index));
    const more = batch.edits.length - edits.length;
    const isFree = mayChange(batch);
    const decide = () => resolveDifferences(batch);
    const isStuck = batch.state === "waiting" && batch.problem !== "" && isFirst;
    return element(
      "li", { class: `batch ${batch.state}` },
      element(
        "p",
        { class: "status" },
        element("strong", {}, text),
        ` · ${say("saved {time}", { time: clock(batch.saved) })}`,
      ),
      problem ? element("p", { class: "problem" }, problem) : null,
      element(
        "ul",
        { class: "edits" },
        ...edits,
        more > 0 ? element("li", {}, say("and {count} more", { count: countedEdits(more) })) : null,
      ),
      element(
        "p", { class: "buttons" },
        batch.state === "differs" ? button(say("Decide"), decide, { class: "main" }) : null,
        isStuck && !batch.held ? button(say("Try now"), () => changed("send")) : null,
        batch.isDoubtful ? button(say("Send it here"), () => sendHere(batch)) : null,
        batch.isDoubtful ? button(say("Keep it for its town"), () => setAside()) : null,
        (batch.held && !batch.isDoubtful) || batch.state === "refused"
          ? button(say("Send again"), () => sendAgain(batch).then(() => changed("send"))) : null,
        isFree && !isOpening(batch)
          ? button(say("Back to basket"), () => takeBack(batch, queue)) : null,
        isFree || batch.tries > 0 ? button(say("Drop"), () => drop(batch)) : null,
      ),
      element("span", { class: "key" }, batch.key),
    );
  }

  #edit(batch, edit, index) {
    const mark = markOf(batch, index);
    const isFree = batch.state === "refused" && mayChange(batch);
    const change = () => this.#listener.onChange(batch, index);
    const takeOut = say("Take the edit of {name} out", { name: edit.id || edit.title });
    const without = () => changeEdits(
      batch,
      batch.edits.filter((_, place) => place !== index),
    ).then(() => changed("send"));
    const select = () => this.#listener.onSelect(edit.collection, edit.id);
    const name = edit.op === "open" ? edit.title : button(edit.id, select, { class: "link" });
    return element(
      "li", { class: mark === "waiting" ? "edit" : `edit mark-${mark}` },
      element(
        "div", {}, name,
        element("span", { class: "note" }, ` ${edit.collection}`),
        element("div", {}, editText(edit, differences)),
      ),
      isFree && edit.feature ? button(say("Change"), change, { class: "small" }) : null,
      isFree ? button(say("Take out"), without, { class: "small", "aria-label": takeOut }) : null,
    );
  }
}

/**
 * @param {import("./queue.js").Batch[]} queue
 * @returns {{text: string, isProblem: boolean}} the queue in a few words
 */
export function queueText(queue) {
  if (queue.length === 0) return { text: "", isProblem: false };
  const count = queue.length;
  const waits = count === 1 ? say("1 batch waits") : say("{count} batches wait", { count });
  const [{ state, held, isDoubtful }] = queue;
  const isLate = isCrowded(nextToSend(queue)?.overtaken);
  const problem = (text) => ({ text: `${waits}: ${text}`, isProblem: true });
  if (state === "refused") return problem(say("one was refused"));
  if (state === "differs") return problem(say("decide between two changes"));
  if (isDoubtful) return problem(say("which town is it for?"));
  if (held) return { text: say("{waits} for name and password", { waits }), isProblem: true };
  if (isLate) return problem(say("others are quicker again and again"));
  return { text: waits, isProblem: false };
}
