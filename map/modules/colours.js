/**
 * @file Colours: one for each collection, those of edits, and those of the paper. The style sheet
 * names them, for light and for dark.
 */
import { result, transact } from "./store.js";

const COUNT = 8;
/** With this factor lamps are orange, parks green and streets blue. */
const FACTOR = 426_155;
const SETTING = "colours";

/**
 * @param {string} name of a custom property
 * @returns {string} its value now
 */
export function colour(name) {
  return getComputedStyle(document.documentElement).getPropertyValue(`--${name}`).trim();
}

/**
 * @param {() => void} listener is called when the device goes from light to dark or back
 */
export function onColours(listener) {
  matchMedia("(prefers-color-scheme: dark)").addEventListener("change", listener);
}

/**
 * @param {string} id of a collection
 * @returns {number} the colour that it has if no other has it: a hash of the id
 */
function preferred(id) {
  let hash = 0;
  for (const byte of new TextEncoder().encode(id)) hash = (Math.imul(hash, FACTOR) + byte) | 0;
  return hash >>> 29;
}

/**
 * Gives each collection a colour by its id. It keeps that colour, whatever collections come later;
 * the first eight have different ones.
 */
export class Palette {
  /** @type {Record<string, number>} */
  #numbers = {};

  /**
   * Gives those that are new a colour, the least used one from their preferred one on.
   * @param {string[]} ids of collections
   */
  async add(ids) {
    this.#numbers = await transact(["settings"], "readwrite", async (table) => {
      const numbers = { ...(await result(table.get(SETTING))) };
      const fresh = ids.filter((id) => !Object.hasOwn(numbers, id));
      for (const id of fresh) {
        const uses = Array(COUNT).fill(0);
        for (const number of Object.values(numbers)) uses[number] += 1;
        const order = uses.map((_, step) => (preferred(id) + step) % COUNT);
        numbers[id] = order.find((number) => uses[number] === Math.min(...uses));
      }
      if (fresh.length > 0) await result(table.put(numbers, SETTING));
      return numbers;
    });
  }

  /**
   * @param {string} id of a collection
   * @returns {string} the name of its colour in the style sheet
   */
  nameOf(id) {
    const number = Object.hasOwn(this.#numbers, id) ? this.#numbers[id] : preferred(id);
    return `collection-${number}`;
  }
}
