/**
 * @file JSON whose whole numbers may have any size. A number that JavaScript cannot hold exactly is
 * a BigInt, so that a feature that is read and written again keeps its properties.
 */

const LONG_NUMBER = /\d{16}/;
const TOKENS = /"(?:[^"\\]|\\.)*"|-?\d+(?:\.\d+)?(?:[eE][+-]?\d+)?/g;

/** It is written before the digits of a BigInt on their way through JSON; nobody can guess it. */
const MARK = `whole ${crypto.getRandomValues(new Uint32Array(4)).join("-")} `;
const MARKED = new RegExp(`"${MARK}(-?\\d+)"`, "g");

/**
 * @param {string} token a string or a number of a JSON text
 * @returns {boolean} whether JSON.parse keeps it as it is
 */
function isKept(token) {
  return token[0] === '"' || !/^-?\d+$/.test(token) || Number.isSafeInteger(Number(token));
}

/**
 * @param {string} text
 * @returns {any} the value; it throws a SyntaxError as JSON.parse does
 */
export function readJson(text) {
  if (!LONG_NUMBER.test(text)) return JSON.parse(text);
  const marked = text.replace(TOKENS, (token) => (isKept(token) ? token : `"${MARK}${token}"`));
  return JSON.parse(marked, (_, value) =>
    typeof value === "string" && value.startsWith(MARK) ? BigInt(value.slice(MARK.length)) : value,
  );
}

/**
 * @param {any} one
 * @param {any} other
 * @returns {boolean} whether two values are the same JSON, in whatever order objects have members
 */
export function isEqual(one, other) {
  if (one === other) return true;
  const areObjects = typeof one === "object" && typeof other === "object" && one && other;
  if (!areObjects || Array.isArray(one) !== Array.isArray(other)) return false;
  if (Array.isArray(one)) return isSameList(one, other);
  const names = Object.keys(one);
  if (names.length !== Object.keys(other).length) return false;
  return names.every((name) => Object.hasOwn(other, name) && isEqual(one[name], other[name]));
}

/**
 * @param {any[]} one
 * @param {any[]} other
 * @returns {boolean} whether they have equal values; lists of positions may be long
 */
function isSameList(one, other) {
  if (one.length !== other.length) return false;
  for (let place = 0; place < one.length; place += 1) {
    if (one[place] !== other[place] && !isEqual(one[place], other[place])) return false;
  }
  return true;
}

/**
 * @param {any} value
 * @param {number} [indent] the number of spaces before each level
 * @returns {string}
 */
export function writeJson(value, indent) {
  const marked = JSON.stringify(
    value,
    (_, inner) => (typeof inner === "bigint" ? MARK + inner : inner),
    indent,
  );
  return marked.replace(MARKED, "$1");
}
