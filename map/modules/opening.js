/**
 * @file Collections that are opened here: what the server takes as an id, a title and the name of a
 * time property.
 *
 * @typedef {{collection: string, title: string, time: string}} Opening no text if it has no
 *   time property
 */
import { say } from "./words.js";

const ID = /^[A-Za-z0-9][A-Za-z0-9._-]{0,63}$/;
const MOST_TITLE_BYTES = 256;
const MOST_TIME_BYTES = 128;

/**
 * @param {string} title
 * @returns {string} an id that reads like it; it may be empty
 */
export function idFrom(title) {
  const plain = title.normalize("NFKD").replace(/\p{M}/gu, "").replaceAll("ß", "ss");
  const words = plain.toLowerCase().replace(/[^a-z0-9]+/g, "-");
  return words.replace(/^-+/, "").slice(0, 64).replace(/-+$/, "");
}

/**
 * @param {string} text
 * @param {number} most
 * @returns {boolean} whether it has at most that number of bytes, and no control characters
 */
function isShort(text, most) {
  return new TextEncoder().encode(text).length <= most && !/\p{Cc}/u.test(text);
}

/**
 * @param {{title: string, id: string, time: string}} typed
 * @param {string[]} known the ids of collections that are there
 * @returns {Opening} it throws, saying why, if the server would not take it
 */
export function readOpening({ title, id, time }, known) {
  const opening = { collection: id.trim(), title: title.trim(), time: time.trim() };
  if (opening.title === "") throw new Error(say("A title is needed."));
  if (!isShort(opening.title, MOST_TITLE_BYTES)) throw new Error(say("The title is too long."));
  if (!ID.test(opening.collection)) {
    throw new Error(say("An id has letters from A to Z, digits, points, hyphens and underscores."));
  }
  if (known.includes(opening.collection)) {
    throw new Error(say("There is a collection with this id."));
  }
  if (!isShort(opening.time, MOST_TIME_BYTES)) {
    throw new Error(say("The name of the time property is too long."));
  }
  return opening;
}
