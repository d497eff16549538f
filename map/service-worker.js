/**
 * @file Keeps the page itself on this device: it starts with no network. Features and batches are
 * not kept here but by the page, and pass by.
 *
 * A copy is a cache of all files of one version of the page. It has the mark WHOLE once it is
 * complete.
 * - One worker at a time makes and deletes copies, under a lock, so reloads in several tabs make
 *   one copy.
 * - The files of a new version are read twice. A version that changed meanwhile is not kept.
 * - A page gets all its files from the copy that its first file came from.
 * - A copy is deleted only after a newer one is whole, and while no open page was loaded from it.
 */

/** Sorts after `page-`, which copies of earlier workers begin with. */
const PREFIX = "version-";
const EARLIER_PREFIX = "page-";
/** The cache that says which copy each open page was loaded from. */
const OPEN_PAGES = "open-pages";
const LOCK = "streetmap-copies";
/** Is in a copy once it is whole. */
const WHOLE = urlOf("whole");
/** The files of the page. */
const LIST = urlOf("files.json");
/** The table that places the grid; it need not be there. */
const PLACE = urlOf("map.json");
const FETCH_SECONDS = 60;
const TRIES = 3;
/** A page is listed as open at most this long after its first file was requested. */
const OPENING_SECONDS = 300;

/**
 * @param {string} file
 * @returns {string} its address
 */
function urlOf(file) {
  return new URL(file, location.href).href;
}

/** @returns {Promise<string[]>} the names of the copies, the newest first */
async function copyNames() {
  return (await caches.keys()).filter((name) => name.startsWith(PREFIX)).sort().reverse();
}

/** @returns {Promise<string | null>} the name of the newest whole copy */
async function newestCopy() {
  for (const name of await copyNames()) {
    if (await caches.match(WHOLE, { cacheName: name })) return name;
  }
  return null;
}

/**
 * @param {string} file
 * @returns {Promise<[string, {text: string, type: string}]>} the file as the server has it now
 */
async function read(file) {
  const signal = /** @type {AbortSignals} */ (AbortSignal).timeout(FETCH_SECONDS * 1000);
  const response = await fetch(file, { cache: "no-cache", signal });
  if (file === PLACE && response.status === 404) {
    return [file, { text: "{}", type: "application/json" }];
  }
  if (!response.ok) throw new Error(`${file}: ${response.status}`);
  const type = response.headers.get("Content-Type") ?? "";
  return [file, { text: await response.text(), type }];
}

/** @returns {Promise<Map<string, {text: string, type: string}>>} all files of the page */
async function readAll() {
  const [, list] = await read(LIST);
  const files = JSON.parse(list.text).map(urlOf);
  return new Map([[LIST, list], ...(await Promise.all([...files, PLACE].map(read)))]);
}

/**
 * @param {string | null} name of a copy
 * @param {Map<string, {text: string}>} files
 * @returns {Promise<string[]>} the files that the copy lacks or has otherwise
 */
async function differing(name, files) {
  if (name === null) return [...files.keys()];
  const copy = await caches.open(name);
  const found = await Promise.all(
    [...files].map(async ([file, { text }]) => {
      const kept = await copy.match(file);
      return kept && (await kept.text()) === text ? [] : [file];
    }),
  );
  return found.flat();
}

/**
 * @param {Map<string, {text: string}>} files
 * @returns {Promise<boolean>} whether the server still has just these
 */
async function isSettled(files) {
  const again = await readAll();
  const isSame = ([file, { text }]) => again.get(file)?.text === text;
  return again.size === files.size && [...files].every(isSame);
}

/** Keeps the version of the page that the server has, if it is new. Runs under the lock. */
async function refresh() {
  const before = await newestCopy();
  let files = await readAll();
  const changed = await differing(before, files);
  if (changed.length > 0) {
    for (let tries = 1; !(await isSettled(files)); tries += 1) {
      if (tries === TRIES) throw new Error("The files of the page are being changed.");
      files = await readAll();
    }
    await keep(files, before);
  }
  await clean();
  if (before === null || changed.every((file) => file === PLACE)) return;
  for (const client of await clients.matchAll()) client.postMessage("new version");
}

/**
 * Makes a copy.
 * @param {Map<string, {text: string, type: string}>} files
 * @param {string | null} before the name of the newest copy
 */
async function keep(files, before) {
  const number = Number((before ?? "").slice(PREFIX.length));
  const copy = await caches.open(`${PREFIX}${Math.max(Date.now(), number + 1)}`);
  const put = ([file, { text, type }]) =>
    copy.put(file, new Response(text, { headers: { "Content-Type": type } }));
  await Promise.all([...files].map(put));
  await copy.put(WHOLE, new Response("whole"));
}

/** Deletes the copies that no open page was loaded from, but for the newest. Under the lock. */
async function clean() {
  const all = await clients.matchAll({ type: "window", includeUncontrolled: true });
  const open = new Set(all.map(({ id }) => pageUrl(id)));
  const used = new Set([await newestCopy()]);
  const pages = await caches.open(OPEN_PAGES);
  for (const request of await pages.keys()) {
    const { copy, time } = await (await pages.match(request)).json();
    const isOpening = Date.now() - time < OPENING_SECONDS * 1000;
    if (open.has(request.url) || isOpening) used.add(copy);
    else await pages.delete(request);
  }
  for (const name of await copyNames()) {
    if (!used.has(name)) await caches.delete(name);
  }
}

/**
 * @param {string} id of a page that is open
 * @returns {string} the address under which it is noted
 */
function pageUrl(id) {
  return urlOf(`open/${id}`);
}

/**
 * @param {FetchEvent} event
 * @returns {Promise<string | null>} the name of the copy that the page gets its files from
 */
async function copyOf({ request, clientId, resultingClientId }) {
  const pages = await caches.open(OPEN_PAGES);
  if (request.mode !== "navigate") {
    const noted = clientId && (await pages.match(pageUrl(clientId)));
    const copy = noted ? (await noted.json()).copy : null;
    return copy && (await caches.has(copy)) ? copy : newestCopy();
  }
  const copy = await newestCopy();
  if (copy && resultingClientId) {
    const note = new Response(JSON.stringify({ copy, time: Date.now() }));
    // A device that is full can still show the page.
    await pages.put(pageUrl(resultingClientId), note).catch(() => {});
  }
  return copy;
}

/**
 * @param {FetchEvent} event
 * @returns {Promise<Response>}
 */
async function answer(event) {
  const name = await copyOf(event);
  const { origin, pathname } = new URL(event.request.url);
  const kept = name && (await caches.match(origin + pathname, { cacheName: name }));
  return kept ?? fetch(event.request);
}

/**
 * Makes a copy before this worker is used. It then waits until all pages are closed, as workers do:
 * the one before keeps new versions of the page just as well. An earlier worker, which does not, is
 * replaced at once.
 */
async function install() {
  const isFirst = (await newestCopy()) === null;
  await navigator.locks.request(LOCK, refresh);
  if (isFirst) await skipWaiting();
}

addEventListener("install", (/** @type {ExtendableEvent} */ event) => {
  event.waitUntil(install());
});

/** The copies of earlier workers go once none of these workers is active. */
async function activate() {
  await clients.claim();
  for (const name of await caches.keys()) {
    if (name.startsWith(EARLIER_PREFIX)) await caches.delete(name);
  }
}

addEventListener("activate", (/** @type {ExtendableEvent} */ event) => {
  event.waitUntil(activate());
});

addEventListener("fetch", (/** @type {FetchEvent} */ event) => {
  const { request } = event;
  const { href, search } = new URL(request.url);
  const isPage = request.mode === "navigate";
  // With a query, a file is requested from the server.
  if (request.method !== "GET" || !href.startsWith(urlOf("./")) || (search && !isPage)) return;
  event.respondWith(answer(event));
  if (!isPage) return;
  const unlessBusy = (lock) => (lock ? refresh() : undefined);
  event.waitUntil(
    navigator.locks.request(LOCK, { ifAvailable: true }, unlessBusy).catch(() => {}),
  );
});
