/**
 * @file The areas that were taken along: their features are kept on this device, whatever else was
 * viewed since.
 *
 * @typedef {import("./walking.js").Area} Area
 */
import { NoAnswer, Refusal, countMatched, pageTarget, readPage } from "./api.js";
import { overlaps } from "./geometry.js";
import { result, currentDatabase, transact } from "./store.js";
import { newArea, progressOf, walk } from "./walking.js";
import { inDigits, say } from "./words.js";

const SETTING = "areas";
/** How many features an area may have. */
const MOST_FEATURES = 100_000;
const AGAIN_SECONDS = 20;

/** @returns {Promise<Area[]>} those that are noted on this device */
async function readAreas() {
  const areas = await transact(["settings"], "readonly", (table) => result(table.get(SETTING)));
  return areas ?? [];
}

/**
 * Changes the list of areas, in one transaction.
 * @param {(areas: Area[]) => Area[]} act
 * @returns {Promise<Area[]>}
 */
function changeAreas(act) {
  return transact(["settings"], "readwrite", async (table) => {
    const areas = act((await result(table.get(SETTING))) ?? []);
    await result(table.put(areas, SETTING));
    return areas;
  });
}

export class Areas {
  /** @type {Area[]} */
  list = [];
  /** Why the walk does not go on. */
  problem = "";
  #seen;
  #onChange;
  #timer = 0;

  /**
   * @param {import("./seen.js").Seen} seen
   * @param {() => void} onChange is called if the list or a walk changed
   */
  constructor(seen, onChange) {
    this.#seen = seen;
    this.#onChange = onChange;
  }

  /**
   * @param {string} collection
   * @param {import("./geometry.js").Box} box
   * @returns {boolean} whether an area has what lies in the box
   */
  has(collection, box) {
    const isOf = ({ parts }) => parts.some((part) => part.collection === collection);
    return this.list.some((area) => isOf(area) && overlaps(area.box, box));
  }

  /**
   * Takes an area along.
   * @param {import("./geometry.js").Box} box
   * @param {string[]} collections
   */
  async take(box, collections) {
    const counted = await Promise.all(
      collections.map(async (collection) => ({
        collection,
        matched: await countMatched(collection, box),
      })),
    );
    const all = counted.reduce((sum, { matched }) => sum + matched, 0);
    if (all > MOST_FEATURES) {
      const count = inDigits(all);
      throw new Error(say("{count} features are too many to take along: zoom in.", { count }));
    }
    this.list = await changeAreas((areas) => [...areas, newArea(Date.now(), box, counted)]);
    await this.goOn();
  }

  /**
   * Walks over an area again, from its beginning.
   * @param {Area} area
   */
  async renew({ number, box, parts }) {
    const again = newArea(number, box, parts);
    this.list = await changeAreas((areas) =>
      areas.map((it) => (it.number === number ? again : it)),
    );
    await this.goOn();
  }

  /**
   * Lets an area go. What lies in no other one goes with what was viewed, the oldest first.
   * @param {Area} area
   */
  async remove({ number }) {
    this.list = await changeAreas((areas) => areas.filter((it) => it.number !== number));
    this.#onChange();
    await this.#seen.release(this.list.map(({ box }) => box));
  }

  /** Goes on with what was cut. One tab walks. */
  async goOn() {
    clearTimeout(this.#timer);
    this.list = await readAreas();
    this.#onChange();
    const lock = `${currentDatabase()}-areas`;
    await navigator.locks.request(lock, { ifAvailable: true }, (held) =>
      held ? this.#walkAll() : undefined,
    );
  }

  async #walkAll() {
    try {
      for (const area of await readAreas()) {
        if (!progressOf(area).isDone) await walk(area, this.#way(area));
      }
      this.problem = "";
    } catch (fault) {
      if (!(fault instanceof NoAnswer) && !(fault instanceof Refusal)) throw fault;
      this.problem = fault.message;
      this.#timer = setTimeout(() => this.goOn(), AGAIN_SECONDS * 1000);
    }
    this.#onChange();
  }

  /**
   * @param {Area} area
   * @returns {import("./walking.js").Way}
   */
  #way({ number, box }) {
    return {
      first: (collection, within) => pageTarget(collection, within, ""),
      read: (target) => this.#read(target),
      keep: (collection, features) => this.#seen.put(collection, features, true),
      note: async (area) => {
        const copy = structuredClone(area);
        this.list = await changeAreas((areas) =>
          areas.map((it) => (it.number === number ? copy : it)),
        );
        this.problem = "";
        this.#onChange();
        return this.list.some((it) => it.number === number);
      },
      finish: ({ collection }, ids) => this.#seen.keepOnly(collection, box, ids),
    };
  }

  /** @param {string} target */
  async #read(target) {
    try {
      return await readPage(target);
    } catch (fault) {
      if (fault instanceof Refusal && fault.status === 404) return null;
      throw fault;
    }
  }
}
