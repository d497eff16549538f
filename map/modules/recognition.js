/**
 * @file Whether the server is the one that this page's edits were made for. A name of the town
 * says so only if the office set one. So the page checks what a town keeps for ever: the batches
 * that it accepted, and its collections. If some of it is gone, then another town is served, or an
 * older copy of this one, and the user is asked.
 */
import { forgetAccepted, lastAccepted } from "./answers.js";
import { NoAnswer, knowsKey, readCollections } from "./api.js";
import { lostCollections } from "./seen.js";
import { readAll, transact } from "./store.js";
import { clock } from "./time.js";
import { compareName, dispelDoubt, readTown } from "./towns.js";
import { say } from "./words.js";

/**
 * Compares what the server keeps with what this device knows. It throws NoAnswer if it cannot.
 * @returns {Promise<string>} why the server may be of another town; empty if it is not
 */
export async function findDoubt() {
  const last = await lastAccepted();
  const { isDoubtful } = await readTown();
  if (last) {
    if (!(await knowsKey(last.key))) {
      const when = clock(last.time);
      return say(
        "The server does not know the batch that was accepted from here at {when}.",
        { when },
      );
    }
    if (isDoubtful) await dispelDoubt();
    return "";
  }
  if (isDoubtful) return say("These edits may have been made for another town.");
  const { collections } = await readCollections();
  const lost = lostCollections(await readAll("collections"), collections);
  const titles = lost.map(({ title }) => `\u201c${title}\u201d`).join(", ");
  return lost.length > 0 ? say(
    "The server does not have the collection {titles} any more.",
    { titles },
  ) : "";
}

/** The user said that the server is the right one, whatever it lacks. */
export async function trustServer() {
  await forgetAccepted();
  await transact(["collections"], "readwrite", (table) => void table.clear());
  await dispelDoubt();
}

/**
 * @returns {Promise<{problem: string, isDoubtful: boolean} | null>} why nothing is sent now; null
 *   if the server is the right one
 */
export async function whyNotHere() {
  const name = await compareName();
  if (name === "silent") throw new NoAnswer(say("There is no network."));
  if (name === "other") {
    return { problem: say("Another town is served at this address now."), isDoubtful: false };
  }
  const doubt = await findDoubt();
  return doubt ? { problem: doubt, isDoubtful: true } : null;
}
