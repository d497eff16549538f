/**
 * @file The features last seen: those that the map shows if the server does not answer.
 *
 * @typedef {import("./feature.js").Feature} Feature
 * @typedef {import("./geometry.js").Box} Box
 * @typedef {import("./sights.js").Sight} Sight
 */
import { readAnswers } from "./answers.js";
import { boxOf, overlaps } from "./geometry.js";
import { idle } from "./idle.js";
import { isEqual } from "./json.js";
import { Sights } from "./sights.js";
import { readAll, result, transact } from "./store.js";

/** How many features of a collection are kept; the ones seen longest ago go first. */
const MOST_KEPT = 20_000;
/** The number written at once, so that a frame can come between. */
const WRITTEN_AT_ONCE = 100;
/** What did not change is written again after this time, in milliseconds. */
const WRITTEN_AGAIN = 600_000;

/**
 * @param {Sight | undefined} sight
 * @returns {boolean} whether it has to be written to the device
 */
function isDue(sight) {
  return sight !== undefined && sight.seen - sight.written > WRITTEN_AGAIN;
}

export class Seen {
  /** @type {Map<string, Sights>} the features of each collection */
  #sights = new Map();
  /** The last record of an accepted batch that is taken in. */
  #answer = 0;

  /** @returns {Promise<Seen>} what was seen before */
  static async open() {
    const seen = new Seen();
    const rows = await readAll("features");
    rows.sort((one, other) => one.seen - other.seen);
    for (const row of rows) {
      const sight = seen.#sight(row.feature, row.seen, row.kept);
      seen.#of(row.collection).set(row.id, { ...sight, written: row.seen });
    }
    await seen.catchUp();
    return seen;
  }

  /** Takes in the batches that were accepted since, by whichever tab. */
  async catchUp() {
    for (const { number, outcome, edits, time } of await readAnswers(this.#answer)) {
      this.#answer = number;
      if (outcome !== "accepted") continue;
      for (const { op, collection, id, feature } of edits) {
        if (op === "open") continue;
        const known = this.#of(collection).get(id);
        if (known && known.seen > time) continue;
        if (feature) this.#of(collection).set(id, this.#sight(feature, time, known?.kept));
        else this.#of(collection).delete(id);
      }
    }
  }

  /**
   * @param {string} collection
   * @returns {Sights}
   */
  #of(collection) {
    if (!this.#sights.has(collection)) this.#sights.set(collection, new Sights());
    return this.#sights.get(collection);
  }

  /**
   * @param {Feature} feature
   * @param {number} seen
   * @param {boolean} [kept]
   * @returns {Sight}
   */
  #sight(feature, seen, kept = false) {
    return { feature, box: boxOf(feature.geometry), seen, kept, written: 0 };
  }

  /**
   * Keeps features that the server showed now.
   * @param {string} collection
   * @param {Feature[]} features
   * @param {boolean} [isTaken] whether they are taken along, and stay
   */
  async put(collection, features, isTaken = false) {
    this.#note(collection, features, isTaken);
    await this.#write(collection, features);
    await this.#trim(collection);
  }

  /**
   * Keeps features that the server showed now: in memory at once, and on the device later, since
   * they are to be drawn first.
   * @param {string} collection
   * @param {Feature[]} features
   * @returns {Feature[]} the same; of one that did not change, the object that is known already
   */
  see(collection, features) {
    this.#note(collection, features, false);
    const sights = this.#of(collection);
    const due = features.filter(({ id }) => isDue(sights.get(id)));
    for (let start = 0; start < due.length; start += WRITTEN_AT_ONCE) {
      const some = due.slice(start, start + WRITTEN_AT_ONCE);
      idle.add(() => this.#write(collection, some));
    }
    if (sights.size > MOST_KEPT) idle.add(() => this.#trim(collection));
    return features.map((feature) => this.find(collection, feature.id)?.feature ?? feature);
  }

  /**
   * @param {string} collection
   * @param {Feature[]} features
   * @param {boolean} isTaken
   */
  #note(collection, features, isTaken) {
    const [sights, now] = [this.#of(collection), Date.now()];
    for (const feature of features) {
      const known = sights.get(feature.id);
      const kept = isTaken || known?.kept || false;
      const isSame = known && isEqual(known.feature, feature);
      const sight = isSame ? known : this.#sight(feature, now, kept);
      if (isTaken || kept !== known?.kept) sight.written = 0;
      [sight.seen, sight.kept] = [now, kept];
      sights.set(feature.id, sight);
    }
  }

  /**
   * Writes what is still in memory of features and is not on the device.
   * @param {string} collection
   * @param {Feature[]} features
   */
  async #write(collection, features) {
    const sights = this.#of(collection);
    const due = features.map(({ id }) => sights.get(id)).filter(isDue);
    for (let start = 0; start < due.length; start += WRITTEN_AT_ONCE) {
      const now = due.slice(start, start + WRITTEN_AT_ONCE).map((sight) => ({ ...sight, sight }));
      const write = (table) => {
        for (const { feature, seen, kept } of now) {
          table.put({ collection, id: feature.id, feature, seen, kept });
        }
      };
      await transact(["features"], "readwrite", write, "relaxed");
      for (const { sight, seen } of now) sight.written = seen;
    }
  }

  /**
   * Lets the features go that are too many.
   * @param {string} collection
   */
  async #trim(collection) {
    await this.drop(collection, this.#of(collection).surplus(MOST_KEPT));
  }

  /**
   * Lets features go that were taken along, unless they lie in one of these boxes.
   * @param {Box[]} boxes
   */
  async release(boxes) {
    const isOut = ({ kept, box }) => kept && !boxes.some((it) => box && overlaps(it, box));
    for (const [collection, sights] of this.#sights) {
      const out = [...sights].filter(([, sight]) => isOut(sight));
      for (const [, sight] of out) sight.kept = false;
      const write = (table) => {
        for (const [id, { feature, seen }] of out) {
          table.put({ collection, id, feature, seen, kept: false });
        }
      };
      if (out.length > 0) await transact(["features"], "readwrite", write, "relaxed");
    }
  }

  /**
   * Forgets features that are not there any more.
   * @param {string} collection
   * @param {Iterable<string>} ids
   */
  async drop(collection, ids) {
    const gone = [...ids].filter((id) => this.#of(collection).delete(id));
    if (gone.length === 0) return;
    const work = (table) => Promise.all(gone.map((id) => result(table.delete([collection, id]))));
    await transact(["features"], "readwrite", work, "relaxed");
  }

  /**
   * Forgets what lies in a box and is not among the features that the server showed of it.
   * @param {string} collection
   * @param {Box} box
   * @param {Set<string>} ids those that it showed
   * @param {number} [time] when it did; what was seen later stays
   */
  async keepOnly(collection, box, ids, time = Infinity) {
    await this.drop(collection, this.#of(collection).missing(box, ids, time));
  }

  /**
   * @param {string} collection
   * @param {Box} box
   * @returns {Sight[]} what was seen whose extent meets the box
   */
  within(collection, box) {
    return this.#of(collection).within(box);
  }

  /**
   * @param {string} collection
   * @param {number} most
   * @returns {Feature[]} features that were seen, at most that number
   */
  some(collection, most) {
    const sights = [...this.#of(collection).values()].slice(-most);
    return sights.map(({ feature }) => feature);
  }

  /** @returns {Iterable<import("./search.js").Candidate>} all that was seen */
  *all() {
    for (const [collection, sights] of this.#sights) {
      for (const { feature } of sights.values()) yield { collection, feature };
    }
  }

  /**
   * @param {string} collection
   * @param {string} id
   * @returns {Sight | undefined}
   */
  find(collection, id) {
    return this.#of(collection).get(id);
  }
}

/**
 * A server never takes a collection away and never gives it another title.
 * @param {import("./api.js").Collection[]} known
 * @param {import("./api.js").Collection[]} now
 * @returns {import("./api.js").Collection[]} those that the server no longer has as they were
 */
export function lostCollections(known, now) {
  const titles = new Map(now.map(({ id, title }) => [id, title]));
  return known.filter(({ id, title }) => titles.get(id) !== title);
}

/**
 * Keeps what the server says of its collections. If one was lost while edits wait, what was known
 * before stays: it shows that the edits were made for another town.
 * @param {import("./api.js").Collection[]} collections
 */
export function keepCollections(collections) {
  const tables = ["collections", "basket", "queue"];
  return transact(tables, "readwrite", async (table, basket, queue) => {
    const waiting = (await result(basket.count())) + (await result(queue.count()));
    const known = await result(table.getAll());
    if (waiting > 0 && lostCollections(known, collections).length > 0) return;
    table.clear();
    for (const collection of collections) table.put({ ...collection, seen: Date.now() });
  });
}
