import assert from "node:assert/strict";
import { test } from "node:test";
import { changesOf, linesOf, readNews } from "../../map/modules/changes.js";

const of = (id, properties = null) => ({ geometry: null, id, properties, type: "Feature" });
const put = (op, id, properties) => ({ op, collection: "lamps", feature: of(id, properties) });
const out = (id) => ({ op: "delete", collection: "lamps", id });
const line = (serial, ...edits) =>
  `${serial}\t${JSON.stringify({ edits, key: `k${serial}` })}\n`;

/** A server that has accepted these lines, and what it was asked for. */
function server(...lines) {
  const asked = [];
  const read = async (after, shown, limit) => {
    asked.push([after, shown]);
    if (lines.length === shown) return "same";
    return { text: lines.slice(after, after + limit).join(""), serial: lines.length };
  };
  return { read, asked };
}

test("a line is a serial and a batch; whole numbers of any size stay as they are", () => {
  const [{ serial, key, edits }] = linesOf(line(7, put("insert", "a", { n: 0 })));
  assert.deepEqual([serial, key, edits[0].feature.id], [7, "k7", "a"]);
  const [long] = linesOf('3\t{"edits":[{"n":12345678901234567890}],"key":"k"}\n');
  assert.equal(long.edits[0].n, 12345678901234567890n);
  assert.deepEqual(linesOf(""), []);
  assert.throws(() => linesOf(line(7).slice(0, -1)), SyntaxError);
  assert.throws(() => linesOf("<html>\n"), SyntaxError);
});

test("of each feature the last edit counts", () => {
  const lines = linesOf(
    line(1, put("insert", "a", { n: 1 }), put("insert", "b")) +
      line(2, put("replace", "a", { n: 2 }), out("b"), put("insert", "c")) +
      line(3, { op: "open", collection: "trees", title: "Trees" }, out("c"), put("insert", "c")),
  );
  assert.deepEqual(
    changesOf(lines).map(({ id, feature }) => [id, feature && feature.properties]),
    [["a", { n: 2 }], ["b", null], ["c", null]],
  );
  assert.equal(changesOf(lines)[1].feature, null);
  assert.notEqual(changesOf(lines)[2].feature, null);
});

test("what is new, and the state that is reached", async () => {
  const { read, asked } = server(line(1, put("insert", "a")), line(2, out("a")), line(3));
  const news = await readNews({ serial: 1, key: "" }, read);
  assert.deepEqual(news.known, { serial: 3, key: "k3" });
  assert.deepEqual(news.changes, [{ collection: "lamps", id: "a", feature: null }]);
  assert.equal(news.isOpened, false);
  assert.equal(await readNews(news.known, read), "same");
  assert.deepEqual(asked, [[0, 1], [2, 3]]);
});

test("a town without batches begins", async () => {
  const open = { op: "open", collection: "lamps", title: "Lamps" };
  const { read } = server(line(1, open, put("insert", "a")));
  const news = await readNews({ serial: 0, key: "" }, read);
  assert.equal(news.isOpened, true);
  assert.deepEqual(news.changes.map(({ id }) => id), ["a"]);
});

test("another history under the same numbers is noticed", async () => {
  const { read } = server(line(1), line(2), line(3));
  assert.equal(await readNews({ serial: 2, key: "another" }, read), null);
  assert.notEqual(await readNews({ serial: 2, key: "k2" }, read), null);
  // An older copy of the town.
  assert.equal(await readNews({ serial: 9, key: "k9" }, read), null);
});

test("what is too much is not followed one by one", async () => {
  const many = Array.from({ length: 102 }, (_, at) => line(at + 1));
  assert.equal(await readNews({ serial: 1, key: "k1" }, server(...many).read), null);
  assert.notEqual(await readNews({ serial: 2, key: "k2" }, server(...many).read), null);
  const wide = line(2, ...Array.from({ length: 1001 }, (_, at) => put("insert", `n${at}`)));
  assert.equal(await readNews({ serial: 1, key: "k1" }, server(line(1), wide).read), null);
});

test("an answer without a tag is whole if it has fewer lines than it may have", async () => {
  const { read } = server(...Array.from({ length: 102 }, (_, at) => line(at + 1)));
  const untagged = async (...asked) => ({ ...(await read(...asked)), serial: null });
  assert.equal(await readNews({ serial: 1, key: "k1" }, untagged), null);
  const news = await readNews({ serial: 5, key: "k5" }, untagged);
  assert.deepEqual(news.known, { serial: 102, key: "k102" });
});

test("an answer that is cut before its state, or has a gap, is not followed", async () => {
  const cut = async () => ({ text: line(1) + line(2), serial: 3 });
  assert.equal(await readNews({ serial: 1, key: "k1" }, cut), null);
  const gap = async () => ({ text: line(1) + line(3), serial: 3 });
  assert.equal(await readNews({ serial: 1, key: "k1" }, gap), null);
  assert.equal(await readNews({ serial: 1, key: "k1" }, async () => null), null);
  const portal = async () => ({ text: "<html>Sign in</html>", serial: null });
  assert.equal(await readNews({ serial: 1, key: "k1" }, portal), null);
});
