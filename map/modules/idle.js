/**
 * @file Work that can wait, such as what is written to the device: it is done piece by piece while
 * the browser has nothing else to do, and not while the features of a view are on their way.
 */

/** The milliseconds that the browser may be busy before a piece is done all the same. */
const MOST_BUSY = 200;
/** The milliseconds that a view may be on its way, likewise. */
const MOST_HELD = 3000;

/** @typedef {(act: () => void, milliseconds?: number) => void} Later */

/** @type {Later} acts when the browser has nothing to do, or after a time if one is given */
function later(act, milliseconds) {
  // Safari has no such callback.
  const isIdleKnown = typeof requestIdleCallback === "function";
  if (milliseconds === undefined && isIdleKnown) requestIdleCallback(act, { timeout: MOST_BUSY });
  else setTimeout(act, milliseconds);
}

export class Idle {
  /** @type {(() => Promise<void>)[]} the first one is done next */
  #pieces = [];
  #later;
  #now;
  /** Since when a view is on its way; infinite if none is. */
  #held = Infinity;
  #isAwaited = false;

  /**
   * @param {Later} [act]
   * @param {() => number} [now] a clock in milliseconds
   */
  constructor(act = later, now = Date.now) {
    this.#later = act;
    this.#now = now;
  }

  /** Lets all pieces wait, until `release` or for a few seconds. */
  hold() {
    this.#held = Math.min(this.#held, this.#now());
  }

  release() {
    this.#held = Infinity;
  }

  /** @param {() => Promise<void>} piece that is done after those that were added before */
  add(piece) {
    this.#pieces.push(piece);
    if (!this.#isAwaited) this.#await();
  }

  #await() {
    this.#isAwaited = this.#pieces.length > 0;
    if (this.#isAwaited) this.#later(() => this.#next());
  }

  async #next() {
    const held = this.#now() - this.#held;
    if (held >= 0 && held < MOST_HELD) return void this.#later(() => this.#next(), MOST_BUSY);
    try {
      await this.#pieces.shift()();
    } catch (fault) {
      console.error(fault);
    }
    this.#await();
  }
}

/** That of the page. */
export const idle = new Idle();
