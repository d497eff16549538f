/**
 * @file Steps that are taken back and taken again: of what is drawn, and of the basket. A history
 * is plain data, so it can be kept.
 *
 * @template State
 * @typedef {{before: State, after: State}} Step
 */
/**
 * @template State
 * @typedef {{done: Step<State>[], undone: Step<State>[]}} History the last ones last
 */

/** How many steps can be taken back. */
const MOST_STEPS = 100;

/** @returns {History<any>} without a step */
export function emptyHistory() {
  return { done: [], undone: [] };
}

/**
 * @template State
 * @param {History<State>} history
 * @param {State} before
 * @param {State} after
 * @returns {History<State>} with a step more; what was taken back cannot be taken again
 */
export function withStep({ done }, before, after) {
  return { done: [...done, { before, after }].slice(-MOST_STEPS), undone: [] };
}

/**
 * Takes the last step back.
 * @template State
 * @param {History<State>} history
 * @returns {{history: History<State>, step: Step<State> | null}} null if no step is left
 */
export function takenBack({ done, undone }) {
  const step = done.at(-1) ?? null;
  if (!step) return { history: { done, undone }, step };
  return { history: { done: done.slice(0, -1), undone: [...undone, step] }, step };
}

/**
 * Takes the step again that was taken back last.
 * @template State
 * @param {History<State>} history
 * @returns {{history: History<State>, step: Step<State> | null}} null if no step is left
 */
export function takenAgain({ done, undone }) {
  const step = undone.at(-1) ?? null;
  if (!step) return { history: { done, undone }, step };
  return { history: { done: [...done, step], undone: undone.slice(0, -1) }, step };
}
