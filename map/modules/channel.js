/**
 * @file Changes sent to all tabs of one town: the basket, the queue and what was seen are shared,
 * so each tab reads them again when another changed them.
 *
 * @typedef {"basket" | "queue" | "view" | "send"} Topic
 */
import { currentDatabase } from "./store.js";

const listeners = new Map();
/** @type {BroadcastChannel | null} */
let channel = null;

/** Joins the tabs of this page's town. */
function join() {
  if (channel) return;
  channel = new BroadcastChannel(currentDatabase());
  channel.addEventListener("message", ({ data }) => tell(data));
}

/**
 * @param {Topic} topic
 * @param {() => void} listener
 */
export function onChange(topic, listener) {
  join();
  listeners.set(topic, [...(listeners.get(topic) ?? []), listener]);
}

/**
 * @param {Topic} topic
 */
function tell(topic) {
  for (const listener of listeners.get(topic) ?? []) listener();
}

/**
 * Notifies this tab and all others that something changed.
 * @param {...Topic} topics
 */
export function changed(...topics) {
  join();
  for (const topic of topics) {
    channel.postMessage(topic);
    tell(topic);
  }
}
