/**
 * @file The positions of a geometry as fields of metres.
 *
 * @typedef {import("./shape.js").Shape} Shape
 */
import { button, element } from "./element.js";
import { metres, paths, readMetres } from "./geometry.js";
import { say } from "./words.js";

const STEPS = { 1: "1 mm", 10: "1 cm", 100: "10 cm", 1000: "1 m", 10000: "10 m" };
/** How many positions the table shows. */
const MOST_ROWS = 200;

/**
 * @param {string} name
 * @param {string} value
 * @returns {HTMLInputElement}
 */
function metresField(name, value) {
  return element(
    "input",
    {
      value,
      inputmode: "decimal",
      placeholder: name,
      "aria-label": say("{name} in metres", { name }),
      class: "metres",
    },
  );
}

/**
 * @param {(position: import("./geometry.js").Position | null) => void} onPosition gets what was
 *   typed; null if it is no position of the grid
 * @returns {HTMLElement} two fields, and a button that adds what they have
 */
export function typedPosition(onPosition) {
  const [x, y] = [say("East"), say("North")].map((name) => metresField(name, ""));
  const add = button(say("Add"), () => {
    const position = [readMetres(x.value), readMetres(y.value)];
    onPosition(position.includes(null) ? null : position);
  });
  return element("p", { class: "typed" }, x, y, add);
}

/**
 * @param {Shape} shape
 * @returns {HTMLElement} by how much arrow keys move its positions
 */
export function stepField(shape) {
  const steps = Object.entries(STEPS);
  const options = steps.map(([value, text]) => element("option", { value }, text));
  const choose = () => (shape.step = Number(step.value));
  const step = element("select", { id: "step", onchange: choose }, ...options);
  step.value = String(shape.step);
  const label = element("label", { for: "step" }, say("Arrow keys move by"));
  return element("p", { class: "field" }, label, step);
}

/**
 * @param {Shape} shape
 * @returns {HTMLElement[]} the positions in fields, path by path
 */
export function positionFields(shape) {
  const all = paths(shape.geometry);
  const total = all.reduce((sum, { positions }) => sum + positions.length, 0);
  if (total > MOST_ROWS) {
    return [element("p", {}, say(
      "{total} positions: move them on the map.",
      { total },
    ))];
  }
  return all.map((path, place) => {
    const last = path.kind === "ring" ? path.positions.length - 1 : path.positions.length;
    const shown = path.positions.slice(0, last);
    const rows = shown.map((_, index) => positionRow(shape, path, index));
    const title = path.kind === "ring" ? say(
      "Ring {number}",
      { number: place + 1 },
    ) : say("Part {number}", { number: place + 1 });
    return element(
      "fieldset",
      {},
      element("legend", { class: all.length > 1 ? null : "hidden" }, title),
      ...rows,
    );
  });
}

/**
 * @param {Shape} shape
 * @param {import("./geometry.js").Path} path
 * @param {number} index
 */
function positionRow(shape, path, index) {
  const fields = [say("East"), say("North")].map((name, axis) =>
    metresField(`${name} ${index + 1}`, metres(path.positions[index][axis])),
  );
  const set = () => {
    const position = fields.map(({ value }) => readMetres(value));
    for (const [axis, field] of fields.entries()) {
      field.setAttribute("aria-invalid", String(position[axis] === null));
    }
    if (position.includes(null)) return;
    shape.set(path, index, position);
    shape.changed();
  };
  for (const field of fields) field.addEventListener("change", set);
  const remove = button(
    "×",
    () => shape.remove(path, index),
    { class: "small", "aria-label": say("Remove position {number}", { number: index + 1 }) },
  );
  return element(
    "p",
    { class: "typed" },
    ...fields,
    path.positions.length > path.least ? remove : null,
  );
}
