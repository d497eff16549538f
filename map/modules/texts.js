/**
 * @file Values and edits as text for people.
 */
import { describe, metres, paths } from "./geometry.js";
import { writeJson } from "./json.js";
import { inDigits, say } from "./words.js";

const ACTIONS = {
  open: say("opened"),
  insert: say("added"),
  replace: say("changed"),
  delete: say("deleted"),
};
/** What the marks of edits mean. */
export const MARKS = {
  basket: say("in the basket"),
  waiting: say("waits to be sent"),
  differs: say("changed by another too"),
  refused: say("refused"),
};

/**
 * @param {unknown} value
 * @returns {string} a value of a property
 */
export function valueText(value) {
  if (value === undefined) return "—";
  return typeof value === "string" ? value : writeJson(value);
}

/**
 * @param {import("./geometry.js").Geometry | null} geometry
 * @returns {string} what it is, and its positions in metres
 */
export function geometryText(geometry) {
  const lines = paths(geometry).map(({ positions }) =>
    positions.map((position) => position.map(metres).join(" ")).join(", "),
  );
  return [describe(geometry), ...lines].join("\n");
}

/**
 * @param {import("./feature.js").Difference} difference
 * @returns {[string, string]} both sides
 */
export function sides({ what, one, other }) {
  const side = (value) => {
    if (value === undefined) return what === "the feature" ? say("not there") : "—";
    if (what === "geometry") return geometryText(value);
    return what === "the feature" ? say("there") : valueText(value);
  };
  return [side(one), side(other)];
}

/**
 * @param {import("./basket.js").Edit} edit
 * @param {(one: any, other: any) => import("./feature.js").Difference[]} compare
 * @returns {string} what the edit does
 */
export function editText({ op, feature, base }, compare) {
  if (op !== "replace") return ACTIONS[op];
  const changes = compare(base, feature).map(({ what }) => what);
  const shown = changes.slice(0, 3).map((what) => (what === "geometry" ? say("moved") : what));
  return `${ACTIONS.replace}: ${shown.join(", ")}${changes.length > 3 ? ", …" : ""}`;
}

/**
 * @param {import("./pending.js").Pending} pending
 * @returns {string}
 */
export function pendingText({ edit, mark }) {
  return `${ACTIONS[edit.op]}, ${MARKS[mark]}`;
}

/**
 * @param {number} number
 * @returns {string}
 */
export function countedEdits(number) {
  const count = inDigits(number);
  return number === 1 ? say("{count} edit", { count }) : say("{count} edits", { count });
}

/**
 * @param {number} number
 * @returns {string}
 */
export function countedPositions(number) {
  const count = inDigits(number);
  return number === 1 ? say("{count} position", { count }) : say("{count} positions", { count });
}
