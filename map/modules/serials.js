/**
 * @file Which state of the town an answer shows. A server that takes conditions gives the number of
 * batches that it had accepted by then as the entity tag of the answer: `ETag: "5"`. That is the
 * serial of the last one of them, and two answers of one serial are of the same state.
 */

/** A tag as this server writes it. What another server in front may add has other forms. */
const TAG = /^(?:W\/)?"(\d{1,15})"$/;

/**
 * @param {Headers} headers of an answer
 * @returns {number | null} the serial of the state that it shows; null if the server gives none.
 *   nginx marks the tag of an answer that it compresses as weak (`W/`): the state is the same.
 */
export function serialIn(headers) {
  const found = TAG.exec(headers.get("etag") ?? "");
  return found ? Number(found[1]) : null;
}

/**
 * @param {"If-Match" | "If-None-Match"} name
 * @param {number | null | undefined} serial
 * @returns {Record<string, string>} the field of a request about the state of a serial; none if
 *   there is none
 */
export function condition(name, serial) {
  return typeof serial === "number" ? { [name]: `"${serial}"` } : {};
}

/**
 * @param {(number | null)[]} serials
 * @returns {number | null} the oldest of them; null if one is not known, or there are none
 */
export function oldestOf(serials) {
  if (serials.length === 0 || serials.includes(null)) return null;
  return serials.reduce((one, other) => Math.min(one, other));
}

/**
 * @param {(number | null)[]} serials
 * @returns {number | null} the newest of those that are known; null if none is
 */
export function newestOf(serials) {
  const isNewer = (one, other) => other !== null && other > (one ?? -1);
  return serials.reduce((one, other) => (isNewer(one, other) ? other : one), null);
}
