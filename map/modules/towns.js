/**
 * @file The towns of this address. Several may be served here, one after the other; each has a
 * database of its own on this device, so that what waits for one is never sent to another.
 *
 * A town's name is the member `town` of map.json: the office may set it, and serve_map.py sets it
 * to the path of the file. Without a name the address has one town, until the server proves to be
 * another (`recognition.js`).
 *
 * @typedef {object} Town
 * @property {string} database its name in IndexedDB
 * @property {string | null} name empty if the office set none, null as long as none was read
 * @property {number} used when it was last shown
 * @property {boolean} isDoubtful whether the user is asked before the next batch is sent
 */
import {
  FIRST_DATABASE,
  countWaiting,
  currentDatabase,
  result,
  transactTowns,
  useDatabase,
} from "./store.js";

/** At most this long the page waits for the town's name when it starts. */
const START_SECONDS = 3;
const LATER_SECONDS = 10;

/** @type {string | null} the name of the town that this page works on */
let currentName = null;

/** @returns {string | null} */
export function townName() {
  return currentName;
}

/**
 * @param {number} [seconds] how long it may take
 * @returns {Promise<string | null>} the name of the town that is served now; empty if it has none,
 *   null if the site does not answer
 */
export async function readTownName(seconds = LATER_SECONDS) {
  try {
    // The service worker lets a request with a query pass.
    const signal = /** @type {AbortSignals} */ (AbortSignal).timeout(seconds * 1000);
    const response = await fetch("map.json?town", { cache: "no-cache", signal });
    if (response.status === 404) return "";
    const json = response.ok ? await response.json() : null;
    if (json === null || typeof json !== "object") return null;
    return typeof json.town === "string" ? json.town : "";
  } catch {
    return null;
  }
}

/**
 * @param {Town[]} towns those that are known, the last used one first
 * @param {string | null} name of the town that is served
 * @returns {Town | undefined} the one that is meant
 */
function chosen(towns, name) {
  if (name === null) return towns[0];
  const named = towns.find((town) => town.name === name);
  // One without a name gets the first name that is read.
  return named ?? towns.find((town) => town.name === null || (town.name === "" && name !== ""));
}

/**
 * @param {IDBObjectStore} table
 * @returns {Promise<Town[]>} the last used one first
 */
async function readTowns(table) {
  const towns = await result(table.getAll());
  return towns.sort((one, other) => other.used - one.used);
}

/**
 * @returns {Promise<Map<string, number>>} the databases that have no town's name yet, with the
 *   number of edits that wait in each. Earlier versions of the page left one without a note.
 */
async function readNameless() {
  const towns = await transactTowns("readonly", readTowns);
  const nameless = towns.filter(({ name }) => !name).map(({ database }) => database);
  const databases = towns.length === 0 ? [FIRST_DATABASE] : nameless;
  const counts = await Promise.all(databases.map((it) => countWaiting(it)));
  return new Map(databases.map((it, index) => [it, counts[index]]));
}

/**
 * Chooses the town that is served, and notes that it was shown.
 * @param {string | null} name as `readTownName` reads it
 * @returns {Promise<Town>}
 */
async function note(name) {
  const nameless = await readNameless();
  return transactTowns("readwrite", async (table) => {
    const towns = await readTowns(table);
    const database = towns.length === 0 ? FIRST_DATABASE : newDatabase();
    const fresh = { database, name: null, isDoubtful: false };
    const town = chosen(towns, name) ?? fresh;
    // What waits in a database without a name may be of any town.
    const isNamed = name !== null && town.name !== name;
    const isDoubtful = town.isDoubtful || (isNamed && nameless.get(town.database) > 0);
    const noted = { ...town, name: name ?? town.name, used: Date.now(), isDoubtful };
    await result(table.put(noted));
    return noted;
  });
}

/** @returns {string} the name of a database that is not there yet */
function newDatabase() {
  return `${FIRST_DATABASE}-${Date.now()}`;
}

/** Works on the town that is served now, or on the last one if the site does not answer. */
export async function enterTown() {
  const { database, name } = await note(await readTownName(START_SECONDS));
  useDatabase(database);
  currentName = name;
}

/** @returns {Promise<"same" | "other" | "silent">} whether this page's town is served now */
export async function compareName() {
  const name = await readTownName();
  if (name === null) return "silent";
  if (name === currentName) return "same";
  const town = await note(name);
  if (town.database !== currentDatabase()) return "other";
  currentName = town.name;
  return "same";
}

let isLeaving = false;

/** @returns {boolean} whether the page is loaded again by itself */
export function isStartingAgain() {
  return isLeaving;
}

/** Loads the page again, without the view and the feature of its address. */
export function startAgain() {
  isLeaving = true;
  history.replaceState(null, "", location.pathname);
  location.reload();
}

/** Leaves what waits for its own town, and begins with nothing. */
export async function setAside() {
  await transactTowns("readwrite", (table) => {
    const fresh = { database: newDatabase(), isDoubtful: false };
    const town = { ...fresh, name: currentName, used: Date.now() };
    return result(table.put(town));
  });
  startAgain();
}

/**
 * Works on what was kept for another town. The user is asked before it is sent.
 * @param {Town} town
 */
export async function takeUp(town) {
  const taken = { ...town, name: currentName, used: Date.now(), isDoubtful: true };
  await transactTowns("readwrite", (table) => result(table.put(taken)));
  startAgain();
}

/** @returns {Promise<Town>} the town that this page works on */
export function readTown() {
  return transactTowns("readonly", (table) => result(table.get(currentDatabase())));
}

/** Notes that the user said what the town is. */
export async function dispelDoubt() {
  await transactTowns("readwrite", async (table) => {
    const town = await result(table.get(currentDatabase()));
    await result(table.put({ ...town, isDoubtful: false }));
  });
}

/** @returns {Promise<(Town & {waiting: number})[]>} other towns for which edits wait here */
export async function readOthers() {
  const all = await transactTowns("readonly", readTowns);
  const others = all.filter(({ database }) => database !== currentDatabase());
  const counted = await Promise.all(
    others.map(async (town) => ({ ...town, waiting: await countWaiting(town.database) })),
  );
  return counted.filter(({ waiting }) => waiting > 0);
}
