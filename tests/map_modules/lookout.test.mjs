import assert from "node:assert/strict";
import { test } from "node:test";
import { Lookout } from "../../map/modules/lookout.js";
import { NoAnswer } from "../../map/modules/request.js";

const BOX = { x0: 0, y0: 0, x1: 100, y1: 100 };
const at = (id, x, y) => ({
  geometry: { type: "Point", coordinates: [x, y] },
  id,
  properties: null,
  type: "Feature",
});
const put = (op, feature) => ({ op, collection: "lamps", feature });
const line = (serial, ...edits) =>
  `${serial}\t${JSON.stringify({ edits, key: `k${serial}` })}\n`;

/** A page over a server that has accepted these lines, and what was done. */
function page(lines, { hasTags = true, hasChanges = true, isCertain = true } = {}) {
  const done = [];
  const tag = () => (hasTags ? lines.length : null);
  const server = {
    readChanges: async (after, shown, limit) => {
      done.push("changes?");
      if (!hasChanges) return "absent";
      if (shown === tag()) return "same";
      return { text: lines.slice(after, after + limit).join(""), serial: tag() };
    },
    readCollections: async (_, shown) => {
      done.push("collections?");
      const isNew = shown === null || shown !== tag();
      return { collections: isNew ? [] : null, serial: tag() };
    },
    keep: async () => {},
  };
  const count = () => new Map([["lamps", { serial: tag() }]]);
  const view = {
    box: BOX,
    counts: new Map(),
    collections: [],
    setCollections: async () => {},
    confirm: () => done.push("as it was"),
    refresh: async () => {
      done.push("view?");
      view.isOwed = false;
      view.counts = count();
    },
    isOwed: false,
    take: (changes, serial) => {
      view.counts = new Map([["lamps", { serial }]]);
      view.isOwed = !isCertain;
      done.push(`took ${changes.map(({ id }) => id)}`);
    },
  };
  const seen = {
    find: (_, id) => (id === "known" ? {} : undefined),
    see: (_, [{ id }]) => void done.push(`saw ${id}`),
    put: async (_, [{ id }]) => void done.push(`took along ${id}`),
    drop: async (_, ids) => void done.push(`dropped ${ids}`),
  };
  const areas = { has: (_, { x0 }) => x0 === 700 };
  const lookout = new Lookout({ view, seen, areas }, () => {}, server);
  const look = async (canWait = false) => {
    done.length = 0;
    await lookout.look(new AbortController().signal, canWait);
    return [...done];
  };
  return { look, lookout, server };
}

test("what did not change costs one request, and nothing else is done", async () => {
  const lines = [line(1)];
  const { look, lookout } = page(lines);
  assert.deepEqual(await look(), ["collections?", "view?"]);
  assert.equal(lookout.shown, 1);
  assert.deepEqual(await look(), ["changes?", "as it was"]);
});

test("what others changed is kept if it is known, in view or taken along", async () => {
  const lines = [line(1)];
  const { look, lookout } = page(lines);
  await look();
  lines.push(
    line(2, put("insert", at("near", 5, 5)), put("replace", at("known", 900, 900))),
    line(3, put("insert", at("far", 900, 900)), put("insert", at("along", 700, 0))),
    line(4, { op: "delete", collection: "lamps", id: "gone" }),
  );
  assert.deepEqual(await look(), [
    "changes?",
    "saw near",
    "saw known",
    "took along along",
    "dropped gone",
    "took near,known,far,along,gone",
  ]);
  assert.equal(lookout.shown, 4);
  assert.deepEqual(await look(), ["changes?", "as it was"]);
});

test("a view of which that is not certain is requested again, and nothing else", async () => {
  const lines = [line(1)];
  const { look } = page(lines, { isCertain: false });
  await look();
  lines.push(line(2, put("insert", at("near", 5, 5))));
  assert.deepEqual(await look(), ["changes?", "saw near", "took near", "view?"]);
  assert.deepEqual(await look(), ["changes?", "as it was"]);
});

test("a view that is not certain is requested once a minute", async (context) => {
  let now = 1e6;
  context.mock.method(Date, "now", () => now);
  const lines = [line(1)];
  const { look } = page(lines, { isCertain: false });
  await look(true);
  lines.push(line(2, put("insert", at("near", 5, 5))));
  assert.deepEqual(await look(true), ["changes?", "saw near", "took near"]);
  now += 59_000;
  // It is drawn; what is not certain is what else the view has.
  assert.deepEqual(await look(true), ["changes?"]);
  now += 2000;
  assert.deepEqual(await look(true), ["changes?", "view?"]);
  for (let serial = 3; serial < 200; serial += 1) lines.push(line(serial));
  assert.deepEqual(await look(true), ["changes?", "collections?"]);
  // What was too much is not read again.
  assert.deepEqual(await look(true), ["collections?"]);
  now += 61_000;
  assert.deepEqual(await look(true), ["collections?", "view?"]);
  assert.deepEqual(await look(true), ["changes?", "as it was"]);
});

test("by tags alone too; what a person did is not put off", async (context) => {
  let now = 1e6;
  context.mock.method(Date, "now", () => now);
  const lines = [line(1)];
  const { look } = page(lines, { hasChanges: false });
  await look(true);
  await look(true);
  lines.push(line(2));
  assert.deepEqual(await look(true), ["collections?"]);
  assert.deepEqual(await look(), ["collections?", "view?"]);
  lines.push(line(3));
  now += 61_000;
  assert.deepEqual(await look(true), ["collections?", "view?"]);
});

test("a collection that was opened, and too much, are requested again as a whole", async () => {
  const lines = [line(1)];
  const { look } = page(lines);
  await look();
  lines.push(line(2, { op: "open", collection: "trees", title: "Trees" }));
  assert.deepEqual(await look(), ["changes?", "collections?", "view?"]);
  for (let serial = 3; serial < 200; serial += 1) lines.push(line(serial));
  assert.deepEqual(await look(), ["changes?", "collections?", "view?"]);
});

test("an older copy of the town, and another history, are requested again", async () => {
  const lines = [line(1), line(2)];
  const { look } = page(lines);
  await look();
  lines.push(line(3));
  await look();
  lines.splice(1);
  assert.deepEqual(await look(), ["changes?", "collections?", "view?"]);
  lines.push(line(2));
  await look();
  lines.splice(1, 1, '2\t{"edits":[],"key":"another"}\n', line(3));
  assert.deepEqual(await look(), ["changes?", "collections?", "view?"]);
});

test("without changes the tag alone says whether the view is requested", async () => {
  const lines = [line(1)];
  const { look } = page(lines, { hasChanges: false });
  assert.deepEqual(await look(), ["collections?", "view?"]);
  // What the server does not have is requested once.
  assert.deepEqual(await look(), ["changes?", "collections?", "as it was"]);
  assert.deepEqual(await look(), ["collections?", "as it was"]);
  lines.push(line(2));
  assert.deepEqual(await look(), ["collections?", "view?"]);
});

test("a server without tags is requested as a whole each time", async () => {
  const { look, lookout } = page([line(1)], { hasTags: false });
  assert.deepEqual(await look(), ["collections?", "view?"]);
  assert.deepEqual(await look(), ["collections?", "view?"]);
  assert.equal(lookout.shown, null);
});

test("without a network the view is shown as it was seen", async () => {
  const { look, lookout, server } = page([line(1)]);
  await look();
  assert.equal(lookout.isSilent, false);
  const { readChanges } = server;
  server.readChanges = async () => {
    throw new NoAnswer("There is no network.");
  };
  assert.deepEqual(await look(), ["view?"]);
  assert.equal(lookout.isSilent, true);
  server.readChanges = readChanges;
  await look();
  assert.equal(lookout.isSilent, false);
});
