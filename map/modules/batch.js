/**
 * @file The texts of batches: what the server reads, in parts that it takes, under keys that say
 * who sent them.
 *
 * @typedef {import("./basket.js").Edit} Edit
 */
import { writeJson } from "./json.js";
import { say } from "./words.js";

/** What the server takes: edits and bytes of one batch. */
const MOST_EDITS = 10_000;
const MOST_BYTES = 8_388_608;
/** What is left for the edits of a batch beside its key. */
const EDIT_BYTES = MOST_BYTES - 128;
const NAME_LENGTH = 24;

/**
 * @param {string} name a person's name
 * @returns {string} what of it may be in a key
 */
export function userOf(name) {
  const plain = name.normalize("NFKD").replace(/\p{M}/gu, "");
  const kept = plain.replace(/[^A-Za-z0-9._-]+/g, "-").replace(/^-+|-+$/g, "");
  return kept.slice(0, NAME_LENGTH);
}

/**
 * @param {string} name as a person typed it
 * @returns {string} what of it may be in a key; it throws if nothing may
 */
export function readUser(name) {
  const user = userOf(name);
  if (user) return user;
  throw new Error(
    say(
      "The name needs Latin letters (A to Z) or digits: keys of batches have no others. " +
        "Write it in Latin letters, say Ivan for Иван.",
    ),
  );
}

/**
 * @param {string} user
 * @returns {string} a key USER:TIME:RANDOM, at most 24 + 1 + 16 + 1 + 20 of the 64 bytes
 */
export function newKey(user) {
  const time = new Date().toISOString().replace(/[-:]|\.\d+/g, "");
  return `${user}:${time}:${crypto.randomUUID().replaceAll("-", "").slice(0, 20)}`;
}

/**
 * @param {Edit} edit
 * @returns {object} the edit as the server reads it
 */
function asSent({ op, collection, id, feature, title, time }) {
  if (op === "open") return { op, collection, title, ...(time ? { time } : {}) };
  return op === "delete" ? { op, collection, id } : { op, collection, feature };
}

/**
 * @param {string} key
 * @param {Edit[]} edits
 * @returns {string} the text of the batch
 */
export function batchText(key, edits) {
  const texts = edits.map((edit) => writeJson(asSent(edit)));
  return `{"key":${JSON.stringify(key)},"edits":[${texts.join(",")}]}`;
}

/**
 * Cuts edits into batches that the server takes, as few as their order allows.
 * @param {Edit[]} edits
 * @returns {Edit[][]}
 */
export function cut(edits) {
  const parts = [];
  let bytes = 0;
  for (const edit of edits) {
    const size = new TextEncoder().encode(writeJson(asSent(edit))).length + 1;
    if (size > EDIT_BYTES) {
      throw new RangeError(say(
        "{id} is too large for a batch.",
        { id: edit.id },
      ));
    }
    const last = parts.at(-1);
    if (!last || last.length === MOST_EDITS || bytes + size > EDIT_BYTES) {
      parts.push([edit]);
      bytes = size;
    } else {
      last.push(edit);
      bytes += size;
    }
  }
  return parts;
}
