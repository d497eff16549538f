/**
 * @file What is kept in IndexedDB. Each town has a database, shared by all tabs: features last
 * seen, the basket, the queue of batches, what became of batches, and settings.
 */

/** The database of the first town; earlier versions of the page had no other. */
export const FIRST_DATABASE = "streetmap";
const VERSION = 1;

/** The database that this page works on. */
let current = FIRST_DATABASE;
/** @type {Map<string, Promise<IDBDatabase>>} */
const opening = new Map();

/**
 * @param {IDBDatabase} database
 */
function makeTables(database) {
  database.createObjectStore("collections", { keyPath: "id" });
  const features = database.createObjectStore("features", { keyPath: ["collection", "id"] });
  features.createIndex("collection", "collection");
  database.createObjectStore("basket", { keyPath: ["collection", "id"] });
  database.createObjectStore("queue", { keyPath: "number", autoIncrement: true });
  database.createObjectStore("answers", { keyPath: "number", autoIncrement: true });
  database.createObjectStore("settings");
}

/**
 * @param {string} name
 * @param {(database: IDBDatabase) => void} make gives a new database its tables
 * @returns {Promise<IDBDatabase>}
 */
function opened(name, make) {
  if (!opening.has(name)) {
    const open = (resolve, reject) => {
      const request = indexedDB.open(name, VERSION);
      request.onupgradeneeded = () => make(request.result);
      request.onsuccess = () => {
        request.result.onversionchange = () => request.result.close();
        resolve(request.result);
      };
      request.onerror = () => reject(request.error);
    };
    opening.set(name, new Promise(open));
  }
  return opening.get(name);
}

/** @returns {string} the name of the database that this page works on */
export function currentDatabase() {
  return current;
}

/**
 * Chooses the database of a town. It is called before anything else is read or written.
 * @param {string} name
 */
export function useDatabase(name) {
  current = name;
}

/**
 * @template T
 * @param {IDBRequest<T>} request
 * @returns {Promise<T>} its result; within the transaction only
 */
export function result(request) {
  return new Promise((resolve, reject) => {
    request.onsuccess = () => resolve(request.result);
    request.onerror = () => reject(request.error);
  });
}

/**
 * Runs a transaction over a database. What `work` wrote is there as a whole once this resolves, and
 * not at all if it throws.
 * @template T
 * @param {IDBDatabase} database
 * @param {string[]} names the tables that it uses
 * @param {"readonly" | "readwrite"} mode
 * @param {(...tables: IDBObjectStore[]) => Promise<T> | T} work it awaits nothing but `result`
 * @param {"strict" | "relaxed"} durability strict: on the disk, not only handed to the system
 * @returns {Promise<T>}
 */
async function transactIn(database, names, mode, work, durability) {
  const transaction = database.transaction(names, mode, { durability });
  /** @type {Promise<void>} */
  const ended = new Promise((resolve, reject) => {
    transaction.oncomplete = () => resolve();
    transaction.onabort = () => reject(
      transaction.error ?? new Error("The transaction was given up."),
    );
  });
  ended.catch(() => {});
  try {
    const value = await work(...names.map((name) => transaction.objectStore(name)));
    await ended;
    return value;
  } catch (fault) {
    try {
      transaction.abort();
    } catch {
      // It ended before.
    }
    throw fault;
  }
}

/**
 * Runs a transaction over the database of this page's town.
 * @template T
 * @param {string[]} names
 * @param {"readonly" | "readwrite"} mode
 * @param {(...tables: IDBObjectStore[]) => Promise<T> | T} work
 * @param {"strict" | "relaxed"} [durability]
 * @returns {Promise<T>}
 */
export async function transact(names, mode, work, durability = "strict") {
  return transactIn(await opened(current, makeTables), names, mode, work, durability);
}

/**
 * Runs a transaction over the list of towns.
 * @template T
 * @param {"readonly" | "readwrite"} mode
 * @param {(towns: IDBObjectStore) => Promise<T> | T} work
 * @returns {Promise<T>}
 */
export async function transactTowns(mode, work) {
  const make = (database) => database.createObjectStore("towns", { keyPath: "database" });
  const database = await opened("streetmap-towns", make);
  return transactIn(database, ["towns"], mode, work, "strict");
}

/**
 * @param {string} name of a town's database
 * @returns {Promise<number>} how many edits of its basket and its queue are not acknowledged
 */
export async function countWaiting(name) {
  const count = async (basket, queue) => {
    const batches = await result(queue.getAll());
    return batches.reduce((sum, { edits }) => sum + edits.length, await result(basket.count()));
  };
  const database = await opened(name, makeTables);
  return transactIn(database, ["basket", "queue"], "readonly", count, "strict");
}

/**
 * @param {string} name
 * @returns {Promise<any[]>} all rows of a table
 */
export function readAll(name) {
  return transact([name], "readonly", (table) => result(table.getAll()));
}

/**
 * @param {string} name
 * @returns {Promise<any>} the value of a setting, or undefined
 */
export function readSetting(name) {
  return transact(["settings"], "readonly", (table) => result(table.get(name)));
}

/**
 * @param {string} name
 * @param {any} value
 */
export function writeSetting(name, value) {
  return transact(["settings"], "readwrite", (table) => result(table.put(value, name)));
}
