/**
 * @file What the answer to a batch means.
 *
 * @typedef {{kind: "accepted", answer: any} | {kind: "refused", refusal:
 *   import("./queue.js").Refused}
 *   | {kind: "overtaken"} | {kind: "held", problem: string}
 *   | {kind: "again", problem: string, mayHaveActed: boolean}} Outcome
 */
import { say } from "./words.js";

/**
 * @param {number} status
 * @returns {boolean} whether the server in front requires a name and a password
 */
export function isLocked(status) {
  return status === 401 || status === 403;
}

/**
 * @param {number} status
 * @returns {string}
 */
export function lockedText(status) {
  return say("Name and password are needed to send ({status}).", { status });
}

/**
 * @param {string} key
 * @param {{status: number, json: any}} answer
 * @returns {Outcome} what an answer to a batch means
 */
export function meaningOf(key, { status, json }) {
  const isSerial = ["number", "bigint"].includes(typeof json?.serial);
  if (status === 200 && json?.key === key && isSerial) {
    return { kind: "accepted", answer: json };
  }
  const isOwn = typeof json?.code === "string";
  // The state is another than the one that was compared, and the key was not used.
  if (status === 412 && json?.code === "changed") return { kind: "overtaken" };
  if (isOwn && status < 500) return { kind: "refused", refusal: { status, ...json } };
  // The server's own answer that it could not: 503 left the state alone, 500 may follow a write.
  if (isOwn) {
    const problem = `${json.description} (${json.code})`;
    return { kind: "again", problem, mayHaveActed: json.code !== "memory" };
  }
  if (isLocked(status)) return { kind: "held", problem: lockedText(status) };
  if (status === 413) {
    const description = say("The batch is larger than the server in front takes.");
    return { kind: "refused", refusal: { status, code: "413", description } };
  }
  return {
    kind: "again",
    problem: say("The server did not answer ({status}).", { status }),
    mayHaveActed: status !== 429,
  };
}
