import assert from "node:assert/strict";
import { test } from "node:test";
import { meaningOf } from "../../map/modules/outcome.js";
import { crowdedText, isCrowded, pauseAfter } from "../../map/modules/turns.js";

const kind = (status, json) => meaningOf("k", { status, json }).kind;

test("a batch is accepted by its own key and a serial alone", () => {
  assert.equal(kind(200, { key: "k", serial: 5 }), "accepted");
  assert.equal(kind(200, { key: "k", serial: 5n }), "accepted");
  assert.equal(kind(200, { key: "other", serial: 5 }), "again");
  assert.equal(kind(200, null), "again");
});

test("a batch that came too late is neither refused nor lost", () => {
  const changed = { code: "changed", description: "The state has another tag." };
  assert.equal(kind(412, changed), "overtaken");
  // What a server in front answers is none of the server's.
  assert.equal(kind(412, null), "again");
  assert.equal(kind(400, { code: "bad_condition", description: "" }), "refused");
  assert.equal(kind(409, { code: "key_used", description: "" }), "refused");
});

test("what may have acted, and what waits for the person", () => {
  const memory = meaningOf("k", { status: 503, json: { code: "memory", description: "" } });
  assert.equal(memory.mayHaveActed, false);
  assert.equal(meaningOf("k", { status: 502, json: null }).mayHaveActed, true);
  assert.equal(meaningOf("k", { status: 429, json: null }).mayHaveActed, false);
  assert.equal(kind(401, null), "held");
  assert.equal(kind(413, null), "refused");
});

test("pauses are of random length, grow, and have a bound", () => {
  const longest = [1, 2, 3, 4, 5, 6, 60].map((times) => pauseAfter(times, () => 1));
  assert.deepEqual(longest, [0.5, 1, 2, 4, 8, 8, 8]);
  assert.equal(pauseAfter(3, () => 0), 0);
  assert.equal(pauseAfter(3, () => 0.25), 0.5);
});

test("the page says so after a few times, and not before", () => {
  assert.equal(crowdedText(5), "");
  assert.match(crowdedText(6), /^6 times another batch/);
  assert.deepEqual([isCrowded(undefined), isCrowded(5), isCrowded(6)], [false, false, true]);
});

/** Crews that send at once, each after its pause: one gets on, the others are compared again. */
function rounds(crews, seconds) {
  let seed = 1;
  const random = () => (seed = (seed * 16807) % 2147483647) / 2147483647;
  const due = Array.from({ length: crews }, (_, crew) => ({ crew, at: 0, times: 0 }));
  const longest = new Array(crews).fill(0);
  const sent = new Array(crews).fill(0);
  // A comparison and its batch take this long; who sends within it meets another state.
  const WINDOW = 0.3;
  let last = -1;
  for (let turn = due[0]; turn.at < seconds; turn = due[0]) {
    const isFree = turn.at >= last + WINDOW;
    if (isFree) {
      last = turn.at;
      sent[turn.crew] += 1;
      turn.times = 0;
      // The next edit of this crew comes soon.
      turn.at += 2 + random();
    } else {
      turn.times += 1;
      longest[turn.crew] = Math.max(longest[turn.crew], turn.times);
      turn.at += WINDOW + pauseAfter(turn.times, random);
    }
    due.sort((one, other) => one.at - other.at);
  }
  return { sent, longest };
}

test("twelve crews that send all the time starve none", () => {
  const { sent } = rounds(12, 600);
  const mean = sent.reduce((one, other) => one + other) / sent.length;
  assert.ok(Math.min(...sent) > mean / 2, `${sent}`);
});
