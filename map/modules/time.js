/**
 * @file Times: the filter of days, and which properties read as a time. All times are UTC.
 */
import { say } from "./words.js";

const DAY = /^\d{4}-\d{2}-\d{2}$/;
const MOMENT = /^\d{4}-\d{2}-\d{2}[Tt]\d{2}:\d{2}:\d{2}(?:\.\d{1,9})?(?:[Zz]|[+-]\d{2}:\d{2})$/;

/**
 * @param {string} from the first day, `YYYY-MM-DD`, or no text
 * @param {string} to the last day
 * @returns {string} the value of `datetime`, or no text without a filter
 */
export function interval(from, to) {
  if (!DAY.test(from) && !DAY.test(to)) return "";
  const start = DAY.test(from) ? `${from}T00:00:00Z` : "..";
  const end = DAY.test(to) ? `${to}T23:59:59.999999999Z` : "..";
  return `${start}/${end}`;
}

/**
 * @param {unknown} value the value of a property
 * @returns {boolean} whether it reads as a day, a date-time or an interval
 */
export function isTime(value) {
  if (typeof value !== "string") return false;
  if (DAY.test(value) || MOMENT.test(value)) return true;
  const ends = value.split("/");
  const open = (end) => end === "" || end === "..";
  return (
    ends.length === 2 &&
    ends.every((end) => open(end) || MOMENT.test(end)) &&
    !ends.every(open)
  );
}

/**
 * @param {string} value a text that reads as a time
 * @returns {string} the same in words
 */
export function timeInWords(value) {
  if (DAY.test(value)) return say("the day {value}, UTC", { value });
  if (!value.includes("/")) return value;
  const [start, end] = value.split("/").map((part) => (part === ".." ? "" : part));
  if (!end) return say("from {start} on", { start });
  return start ? `${start} to ${end}` : say("up to {end}", { end });
}

/**
 * @param {number} moment milliseconds since 1970
 * @returns {string} the clock of this device; with the day if it is not today
 */
export function clock(moment) {
  const time = new Date(moment);
  const two = (number) => String(number).padStart(2, "0");
  const hour = `${two(time.getHours())}:${two(time.getMinutes())}`;
  if (time.toDateString() === new Date().toDateString()) return hour;
  return `${time.getFullYear()}-${two(time.getMonth() + 1)}-${two(time.getDate())} ${hour}`;
}
