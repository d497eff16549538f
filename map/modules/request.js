/**
 * @file Requests to the server and their answers. An answer counts if it is the server's own: JSON
 * it writes. What nginx answers in its place (502, 504, a page of HTML) is none.
 */
import { readJson } from "./json.js";
import { condition, serialIn } from "./serials.js";
import { say } from "./words.js";

/** So long an answer to what only reads may take. */
export const READ_SECONDS = 30;

/** The server did not answer: no network, or something else answered in its place. */
export class NoAnswer extends Error {
  /**
   * @param {string} text
   * @param {number} [status] that of the answer in its place
   */
  constructor(text, status = 0) {
    super(text);
    this.name = "NoAnswer";
    this.status = status;
  }
}

/** The server answered that it does not do this. */
export class Refusal extends Error {
  /**
   * @param {number} status
   * @param {{code: string, description: string, place?: number, cause?: string}} body
   */
  constructor(status, body) {
    super(body.description);
    this.name = "Refusal";
    this.status = status;
    this.body = body;
  }
}

/**
 * Fetches, and gives up after some seconds.
 * @param {string} target path and query
 * @param {RequestInit} options
 * @param {number} seconds
 * @param {number} [most] the characters of the body that are read
 * @returns {Promise<{status: number, type: string, text: string | null, serial: number | null}>}
 *   no text if it is longer
 */
export async function fetched(target, options, seconds, most = Infinity) {
  const late = new AbortController();
  const timer = setTimeout(() => late.abort(), seconds * 1000);
  const give = () => late.abort();
  options.signal?.addEventListener("abort", give);
  try {
    /** @type {RequestInit} */
    const settings = { cache: "no-store", redirect: "error", credentials: "same-origin" };
    const response = await fetch(target, { ...options, ...settings, signal: late.signal });
    const text = await (most === Infinity ? response.text() : shortText(response, most));
    const type = response.headers.get("content-type") ?? "";
    return { status: response.status, type, text, serial: serialIn(response.headers) };
  } catch (fault) {
    if (options.signal?.aborted) throw new DOMException(say("The view moved on."), "AbortError");
    throw new NoAnswer(late.signal.aborted ? say(
      "The server is silent.",
    ) : say("There is no network."));
  } finally {
    clearTimeout(timer);
    options.signal?.removeEventListener("abort", give);
  }
}

/**
 * @param {Response} response
 * @param {number} most
 * @returns {Promise<string | null>} its text; null if it is longer, and then the rest is not read
 */
async function shortText(response, most) {
  const reader = response.body?.getReader();
  const decoder = new TextDecoder();
  let text = "";
  for (let part = await reader?.read(); part && !part.done; part = await reader.read()) {
    text += decoder.decode(part.value, { stream: true });
    if (text.length <= most) continue;
    await reader.cancel();
    return null;
  }
  return text;
}

/**
 * @param {number | null} shown the serial of a state that is known already
 * @param {boolean} isExact whether no follower may answer, which may be some batches late
 * @returns {Record<string, string>} the fields that say so; nginx-followers.conf knows the second
 */
export function fieldsOf(shown, isExact) {
  const routing = isExact ? { "Streetmap-Primary": "yes" } : {};
  return { ...condition("If-None-Match", shown), ...routing };
}

/**
 * Fetches JSON.
 * @param {string} target path and query
 * @param {RequestInit} options
 * @param {number} seconds
 * @returns {Promise<{status: number, json: any, serial: number | null}>} json is null if the body
 *   is none of the server's
 */
export async function fetchedJson(target, options, seconds) {
  const { status, type, text, serial } = await fetched(target, options, seconds);
  return { status, json: ownJson(type, text), serial };
}

/**
 * @param {string} type
 * @param {string} text
 * @returns {any} the object that the body is, if it says that it is JSON; else null
 */
function ownJson(type, text) {
  if (!/^application\/(geo\+)?json\b/.test(type)) return null;
  try {
    const value = readJson(text);
    return value !== null && typeof value === "object" ? value : null;
  } catch {
    return null;
  }
}

/**
 * @param {string} target path and query
 * @param {{signal?: AbortSignal, shown?: number | null, isExact?: boolean}} [options] the serial of
 *   a state that is known already, and whether no follower may answer
 * @returns {Promise<{json: any, serial: number | null}>} the JSON of the answer 200, and which
 *   state it shows; null if that is still the one that is known
 */
export async function read(target, options = {}) {
  const { signal, shown = null, isExact = false } = options;
  const headers = fieldsOf(shown, isExact);
  const { status, json, serial } = await fetchedJson(target, { signal, headers }, READ_SECONDS);
  if (status === 304 && shown !== null) return { json: null, serial };
  if (status === 200 && json) return { json, serial };
  if (json && typeof json.code === "string") throw new Refusal(status, json);
  throw new NoAnswer(say("The server did not answer ({status}).", { status }), status);
}
