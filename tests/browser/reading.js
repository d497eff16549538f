/** @file What the test of readers requires of the page; each function lists what is at fault. */

/**
 * @param {number[]} rgb from 0 to 255
 * @returns {number} the relative luminance (WCAG 2.1)
 */
function luminance(rgb) {
  const [r, g, b] = rgb
    .map((channel) => channel / 255)
    .map((part) => (part <= 0.04045 ? part / 12.92 : ((part + 0.055) / 1.055) ** 2.4));
  return 0.2126 * r + 0.7152 * g + 0.0722 * b;
}

/**
 * @param {number[]} one
 * @param {number[]} other
 * @returns {number} their contrast, from 1 to 21
 */
function contrast(one, other) {
  const [low, high] = [luminance(one), luminance(other)].sort((left, right) => left - right);
  return (high + 0.05) / (low + 0.05);
}

/**
 * @param {string} text a computed colour
 * @returns {number[]} its channels, and its opacity if it has one
 */
function channels(text) {
  return text.match(/[\d.]+/g).map(Number);
}

/**
 * @param {Element} node
 * @returns {number[]} the background colour of its text
 */
function ground(node) {
  for (let at = node; at; at = at.parentElement) {
    const [r, g, b, opacity = 1] = channels(getComputedStyle(at).backgroundColor);
    if (opacity === 1) return [r, g, b];
  }
  return [255, 255, 255];
}

/** @returns {string[]} texts whose contrast is below 4.5 to 1 */
function faintTexts() {
  const found = [];
  const walker = document.createTreeWalker(document.body, NodeFilter.SHOW_TEXT);
  for (let node = walker.nextNode(); node; node = walker.nextNode()) {
    const parent = node.parentElement;
    const isSeen = node.data.trim() && parent.checkVisibility();
    if (!isSeen || parent.closest(".hidden, option, script, :disabled")) continue;
    const ratio = contrast(channels(getComputedStyle(parent).color).slice(0, 3), ground(parent));
    if (ratio < 4.5) found.push(`${node.data.trim().slice(0, 30)} ${ratio.toFixed(2)}`);
  }
  return found;
}

/** @returns {string[]} colours of symbols whose contrast to the paper is below 3 to 1 */
function faintSymbols() {
  const style = getComputedStyle(document.documentElement);
  const rgb = (name) => {
    const text = style.getPropertyValue(`--${name}`).trim();
    return [1, 3, 5].map((at) => parseInt(text.slice(at, at + 2), 16));
  };
  const marks = ["basket", "waiting", "differs", "refused"].map((mark) => `mark-${mark}`);
  const collections = [...Array(8).keys()].map((place) => `collection-${place}`);
  const names = [...collections, ...marks, "draft", "chosen", "own"];
  return names.filter((name) => contrast(rgb(name), rgb("paper")) < 3);
}

/** @returns {string[]} what can be pressed and is smaller than 24 by 24 pixels */
function smallTargets() {
  const all = [...document.querySelectorAll("button, a, input, select")];
  const isSmall = (target) => {
    const { width, height, bottom } = (target.closest("label") ?? target).getBoundingClientRect();
    return width > 0 && bottom > 0 && (width < 24 || height < 24);
  };
  const small = all.filter((target) => target.checkVisibility() && isSmall(target));
  return small.map(({ innerText, id, type }) => innerText || id || type);
}

/** @returns {string} what has the focus, in a word; none if nothing has it */
function focused() {
  const { activeElement: it } = document;
  if (it === document.body) return "";
  const name = it.id || it.innerText || it.getAttribute("aria-label");
  return name || it.closest("label")?.innerText || it.tagName;
}
