/**
 * @file Whose turn it is, if many send at once. A batch is taken only in the state with which it
 * was compared; if another one came first, it is compared and sent again. Each time somebody got
 * on. The pauses are of random length, so that two that meet do not meet again.
 */
import { say } from "./words.js";

/** The longest pause after the first time, and after any, in seconds. */
const FIRST = 0.5;
const LONGEST = 8;
/** From this time on the page says so. */
const CROWDED = 6;

/**
 * @param {number} times how often others came first, one after the other
 * @param {() => number} [random] from 0 to 1
 * @returns {number} the seconds until the next try
 */
export function pauseAfter(times, random = Math.random) {
  return random() * Math.min(LONGEST, FIRST * 2 ** (times - 1));
}

/**
 * @param {number | undefined} times
 * @returns {boolean} whether that is often enough for the page to say so
 */
export function isCrowded(times) {
  return times >= CROWDED;
}

/**
 * @param {number} times
 * @returns {string} what the page says; no text as long as that is not needed
 */
export function crowdedText(times) {
  if (!isCrowded(times)) return "";
  return say(
    "{times} times another batch was accepted between the comparison and this one. It is " +
      "compared and sent again.",
    { times },
  );
}
