/**
 * @file The language of the page. Its texts are written in English where they are used.
 * `texts.json` is the table of them all in other languages, and the browser's language chooses.
 */

const LANGUAGES = ["en", "de"];

/**
 * @param {readonly string[]} wanted the languages that the browser names, the best first
 * @returns {string} the first of them that the table has, or English
 */
export function chooseLanguage(wanted) {
  const known = wanted.map((tag) => tag.toLowerCase().split("-")[0]);
  return known.find((it) => LANGUAGES.includes(it)) ?? "en";
}

/**
 * @param {string} text
 * @param {Record<string, any>} parts
 * @returns {string} the text with each `{name}` replaced by the part of that name
 */
export function fillIn(text, parts) {
  return text.replace(/\{(\w+)\}/g, (whole, name) =>
    Object.hasOwn(parts, name) ? String(parts[name]) : whole,
  );
}

const hasPage = typeof document !== "undefined";
export const language = hasPage ? chooseLanguage(navigator.languages) : "en";

/** @returns {Promise<Record<string, string>>} the table of the language; none of English */
async function readTable() {
  if (language === "en") return {};
  try {
    const response = await fetch("texts.json", { cache: "no-cache" });
    return (await response.json())[language];
  } catch {
    return {};
  }
}

const table = await readTable();

/**
 * @param {string} text in English
 * @param {Record<string, any>} [parts] what replaces each `{name}` in it
 * @returns {string} the same in the language of the page
 */
export function say(text, parts = {}) {
  return fillIn(Object.hasOwn(table, text) ? table[text] : text, parts);
}

/** @type {Map<number | undefined, Intl.NumberFormat>} by digits: one takes long to make */
const formats = new Map();

/**
 * @param {number} number
 * @param {number} [digits] how many are after the point; without it as many as are needed, up to 3
 * @returns {string} with the marks of the page's language
 */
export function inDigits(number, digits = undefined) {
  if (!formats.has(digits)) {
    const options = { minimumFractionDigits: digits ?? 0, maximumFractionDigits: digits ?? 3 };
    formats.set(digits, new Intl.NumberFormat(language, options));
  }
  return formats.get(digits).format(number);
}

/** Puts the texts of the document itself into the page's language. */
export function sayDocument() {
  document.documentElement.lang = language;
  document.title = say(document.title);
  const walker = document.createTreeWalker(document.body, NodeFilter.SHOW_TEXT);
  for (let node = walker.nextNode(); node; node = walker.nextNode()) {
    const text = node.nodeValue.trim();
    if (text) node.nodeValue = node.nodeValue.replace(text, () => say(text.replace(/\s+/g, " ")));
  }
  for (const named of document.querySelectorAll("[aria-label]")) {
    named.setAttribute("aria-label", say(named.getAttribute("aria-label")));
  }
}
