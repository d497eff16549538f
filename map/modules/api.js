/**
 * @file What the page requests from the server.
 *
 * @typedef {import("./feature.js").Feature} Feature
 * @typedef {import("./geometry.js").Box} Box
 * @typedef {{id: string, title: string, extent: Box | null}} Collection
 * @typedef {{features: Feature[], numberMatched: number, next: string | null,
 *   serial: number | null}} Page a serial is that of the state that is shown, null if the server
 *   does not say it
 */
import { isPhone } from "./element.js";
import { bare } from "./feature.js";
import {
  NoAnswer,
  READ_SECONDS,
  Refusal,
  fetched,
  fetchedJson,
  fieldsOf,
  read,
} from "./request.js";
import { condition } from "./serials.js";
import { say } from "./words.js";

export { NoAnswer, Refusal };

/** How many features one page holds. */
export const PAGE_LIMIT = 1000;

const SEND_SECONDS = 300;
/** The most characters that are read of what others changed. */
const MOST_CHANGED = 1_000_000;
/** The largest bound of a box that the server takes. */
const FARTHEST = 2_000_000_000;

/** @returns {number} how many features of a collection are shown */
export function shownLimit() {
  return isPhone() ? 2000 : 5000;
}

/**
 * @param {AbortSignal} [signal]
 * @param {number | null} [shown] the serial of the state that is shown
 * @returns {Promise<{collections: Collection[] | null, serial: number | null}>} null if that is
 *   still the state
 */
export async function readCollections(signal, shown = null) {
  const { json, serial } = await read("/collections", { signal, shown });
  if (json === null) return { collections: null, serial };
  const collections = json.collections.map(({ id, title, extent }) => {
    const bounds = extent?.spatial?.bbox?.[0];
    const box = bounds && { x0: bounds[0], y0: bounds[1], x1: bounds[2], y1: bounds[3] };
    return { id, title, extent: box ?? null };
  });
  return { collections, serial };
}

/**
 * Reads the batches that were accepted after a serial.
 * @param {number} after
 * @param {number} shown the serial of the state that is shown
 * @param {number} limit the most batches
 * @param {{signal?: AbortSignal, isExact?: boolean}} [how] whether no follower may answer
 * @returns {Promise<{text: string, serial: number | null} | "same" | "absent" | null>} lines, and
 *   the serial of the state now; `same` if it is the one that is shown, `absent` if the server does
 *   not give them, null if they are too long
 */
export async function readChanges(after, shown, limit, how = {}) {
  const { signal, isExact = false } = how;
  const query = new URLSearchParams({ after: String(after), limit: String(limit) });
  const options = { signal, headers: fieldsOf(shown, isExact) };
  const answer = await fetched(`/changes?${query}`, options, READ_SECONDS, MOST_CHANGED);
  const { status, text, serial } = answer;
  if (status === 304) return "same";
  if (status === 404 || status === 405) return "absent";
  if (status === 200) return text === null ? null : { text, serial };
  throw new NoAnswer(say("The server did not answer ({status}).", { status }), status);
}

/**
 * @param {string} collection
 * @returns {string} the path of its features
 */
function itemsPath(collection) {
  return `/collections/${encodeURIComponent(collection)}/items`;
}

/**
 * @param {string} collection
 * @param {Box} box
 * @param {string} datetime an interval, or no text
 * @param {number} [limit]
 * @returns {string} where the first page of the features that meet a box is
 */
export function pageTarget(collection, box, datetime, limit = PAGE_LIMIT) {
  const within = (value) => Math.max(-FARTHEST, Math.min(FARTHEST, value));
  const bounds = [box.x0, box.y0, box.x1, box.y1].map(within);
  const query = new URLSearchParams({ bbox: bounds.join(","), limit: String(limit) });
  if (datetime) query.set("datetime", datetime);
  return `${itemsPath(collection)}?${query}`;
}

/**
 * Reads a page. The link `next` is followed by its path and query: its host may be one that only
 * others can reach.
 * @param {string} target path and query
 * @param {AbortSignal} [signal]
 * @returns {Promise<Page>}
 */
export async function readPage(target, signal) {
  const { json, serial } = await read(target, { signal });
  const { features, numberMatched, links } = json;
  const href = links?.find((link) => link.rel === "next")?.href;
  const next = href && new URL(href, location.href);
  const following = next ? next.pathname + next.search : null;
  return { features: features.map(bare), numberMatched, next: following, serial };
}

/**
 * @param {string} collection
 * @param {Box} box
 * @param {string} [datetime] an interval, or no text
 * @param {AbortSignal} [signal]
 * @returns {Promise<number>} how many features meet the box
 */
export async function countMatched(collection, box, datetime = "", signal = undefined) {
  return (await readPage(pageTarget(collection, box, datetime, 1), signal)).numberMatched;
}

/**
 * The pages of the features that meet a box, one after the other.
 * @param {string} collection
 * @param {Box} box
 * @param {string} datetime an interval, or no text
 * @param {AbortSignal} signal
 * @returns {AsyncGenerator<Page>}
 */
export async function* readPages(collection, box, datetime, signal) {
  let target = pageTarget(collection, box, datetime);
  for (let shown = 0; target && shown < shownLimit(); ) {
    const page = await readPage(target, signal);
    target = page.next;
    shown += page.features.length;
    yield page;
  }
}

/**
 * @param {string} collection
 * @param {string} id
 * @param {boolean} [isExact] whether no follower may answer
 * @returns {Promise<{feature: Feature | null, serial: number | null}>} null if it is not there, or
 *   if the server does not say which state that is
 */
export async function readFeature(collection, id, isExact = false) {
  const target = `${itemsPath(collection)}/${encodeURIComponent(id)}`;
  try {
    const { json, serial } = await read(target, { isExact });
    return { feature: bare(json), serial };
  } catch (fault) {
    // An error has no tag.
    if (fault instanceof Refusal && fault.status === 404) return { feature: null, serial: null };
    throw fault;
  }
}

/**
 * Queries whether the server accepted a batch under a key. What is sent for that is refused either
 * way and changes nothing: a key that was used, before the edit is read; else the edit, since
 * its collection does not exist.
 * @param {string} key
 * @returns {Promise<boolean>}
 */
export async function knowsKey(key) {
  const collection = `unknown-${crypto.randomUUID()}`;
  const edits = [{ op: "delete", collection, id: "unknown" }];
  const { status, json } = await postBatch(JSON.stringify({ key, edits }));
  if (json?.code === "key_used") return true;
  if (json?.code === "no_collection") return false;
  throw new NoAnswer(say("The server did not answer ({status}).", { status }), status);
}

/**
 * @param {string} body the bytes of the batch
 * @param {number | null} [compared] the serial of the only state that it may change
 * @returns {Promise<{status: number, json: any}>}
 */
export function postBatch(body, compared) {
  const headers = { "Content-Type": "application/json", ...condition("If-Match", compared) };
  return fetchedJson("/batches", { method: "POST", headers, body }, SEND_SECONDS);
}
