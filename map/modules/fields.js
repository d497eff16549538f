/**
 * @file The fields that the office describes in `map.json` for the properties of a collection:
 *
 *     {"collections": {"lamps": {"fields": [
 *       {"name": "street", "label": "Street", "type": "text", "required": true},
 *       {"name": "state", "type": "choice", "choices": ["good", "worn"], "default": "good"}, ..]}}}
 *
 * @typedef {"text" | "whole" | "decimal" | "date" | "yes/no" | "choice"} FieldType
 * @typedef {object} Field
 * @property {string} name of the property
 * @property {string} label
 * @property {FieldType} type a whole number is a number; a decimal and a date are kept as text
 * @property {any[]} choices the values of a choice
 * @property {any} default the value that a new feature has; undefined if it has none
 * @property {"" | "today" | "accuracy"} from what else gives a new feature its value
 * @property {boolean} isRequired
 * @property {boolean} isCopied whether "as the last one" copies it
 */
import { checkNumbers, kindOf } from "./kinds.js";
import { say } from "./words.js";

const TYPES = ["text", "whole", "decimal", "date", "yes/no", "choice"];
const DECIMAL = /^-?\d+(?:[.,]\d+)?$/;
const DAY = /^(\d{4})-(\d{2})-(\d{2})$/;
/** The texts of the values of a field "yes/no". */
export const TRUTHS = { yes: true, no: false };
/** How many fields of a collection are read, and how many choices of a field. */
const MOST_FIELDS = 60;
const MOST_CHOICES = 200;

/**
 * @param {string} text
 * @returns {boolean} whether it is a day of the calendar, `YYYY-MM-DD`
 */
function isDay(text) {
  const [, year, month, day] = DAY.exec(text) ?? [];
  if (!year) return false;
  const date = new Date(`${text}T00:00:00Z`);
  return date.getUTCMonth() + 1 === Number(month) && date.getUTCDate() === Number(day);
}

/**
 * @param {Field} field
 * @param {any} value
 * @returns {boolean} whether the field can show and write it
 */
export function holds({ type, choices }, value) {
  if (type === "choice") return choices.includes(value);
  if (type === "yes/no") return typeof value === "boolean";
  if (type === "whole") {
    return typeof value === "bigint" || (typeof value === "number" && Number.isInteger(value));
  }
  if (typeof value !== "string") return false;
  if (type === "decimal") return DECIMAL.test(value);
  return type === "text" || isDay(value);
}

/**
 * @param {any} described one field of `map.json`
 * @returns {Field} it throws, saying why, if it has another form
 */
function readField(described) {
  const { name, label = name, type = "text", choices = [] } = described ?? {};
  const fault = (why) => new Error(say("the field “{name}” {why}", { name, why }));
  if (typeof name !== "string" || name === "") throw new Error(say("a field has no name"));
  if (typeof label !== "string") throw fault(say("has a label that is no text"));
  if (!TYPES.includes(type)) {
    throw fault(say(
      "has no type of {types}",
      { types: TYPES.join(", ") },
    ));
  }
  if (!Array.isArray(choices) || choices.length > MOST_CHOICES) throw fault(say("has bad choices"));
  const isPlain = (value) => ["text", "number", "truth"].includes(kindOf(value));
  if (!choices.every(isPlain)) throw fault(say("has bad choices"));
  if (type === "choice" && choices.length === 0) throw fault(say("has no choices"));
  for (const value of choices) checkNumbers(value, name);
  const isToday = type === "date" && described.default === "today";
  const from = isToday ? "today" : described.from === "accuracy" ? "accuracy" : "";
  if (from === "accuracy" && !["text", "whole", "decimal"].includes(type)) {
    throw fault(say("cannot have an accuracy"));
  }
  /** @type {Field} */
  const field = {
    name,
    label,
    type,
    choices,
    default: isToday ? undefined : described.default,
    from,
    isRequired: described.required === true,
    isCopied: described.copied !== false && from === "",
  };
  if (field.default !== undefined && !holds(field, field.default)) {
    throw fault(say("has a default that is none of its values"));
  }
  return field;
}

/**
 * @param {any} described the member `fields` of a collection in `map.json`
 * @returns {Field[]} it throws, saying why, if it has another form
 */
export function readFields(described) {
  if (described === undefined) return [];
  if (!Array.isArray(described) || described.length > MOST_FIELDS) {
    throw new Error(say("its fields are no list"));
  }
  const fields = described.map(readField);
  if (new Set(fields.map(({ name }) => name)).size < fields.length) {
    throw new Error(say("a field is there twice"));
  }
  return fields;
}

/**
 * @param {any} value that a field holds
 * @returns {string} as it is typed
 */
export function fieldText(value) {
  if (value === undefined) return "";
  if (typeof value === "boolean") return value ? "yes" : "no";
  return String(value);
}

/**
 * @param {Field} field
 * @param {Date} now
 * @returns {string} what a new feature has
 */
export function firstText(field, now) {
  const two = (number) => String(number).padStart(2, "0");
  if (field.from === "today") {
    return `${now.getFullYear()}-${two(now.getMonth() + 1)}-${two(now.getDate())}`;
  }
  return fieldText(field.default);
}

/**
 * @param {Field} field
 * @param {number} metres how far a position may be off
 * @returns {string} as the field keeps it: rounded up, to decimetres in a decimal
 */
export function accuracyText({ type }, metres) {
  return type === "whole" ? String(Math.ceil(metres)) : (Math.ceil(metres * 10) / 10).toFixed(1);
}

/**
 * @param {Field} field
 * @param {string} text as it was typed or chosen
 * @returns {any} the value; undefined if the field is empty. It throws if the text is none of the
 *   field's.
 */
export function fieldValue(field, text) {
  const { label, type, choices, isRequired } = field;
  const trimmed = text.trim();
  if (trimmed === "") {
    if (isRequired) throw new Error(say("“{label}” is needed.", { label }));
    return undefined;
  }
  if (type === "text") return text;
  if (type === "choice") return choices.find((value) => fieldText(value) === text);
  if (type === "yes/no") return trimmed === "yes";
  if (type === "whole") return wholeNumber(label, trimmed);
  if (type === "decimal") {
    if (!DECIMAL.test(trimmed)) {
      throw new Error(say(
        "{label}: “{text}” is no number.",
        { label, text },
      ));
    }
    return trimmed.replace(",", ".");
  }
  if (!isDay(trimmed)) throw new Error(say("{label}: “{text}” is no day.", { label, text }));
  return trimmed;
}

/**
 * @param {string} label
 * @param {string} text
 * @returns {number | bigint}
 */
function wholeNumber(label, text) {
  if (!/^-?\d{1,20}$/.test(text)) {
    throw new Error(say(
      "{label}: “{text}” is no whole number.",
      { label, text },
    ));
  }
  const number = Number(text);
  const value = Number.isSafeInteger(number) ? number || 0 : BigInt(text);
  checkNumbers(value, label);
  return value;
}
