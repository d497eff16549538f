/**
 * @file Squares of a plane of pixels: which of them a rectangle has a part of.
 *
 * @typedef {{left: number, top: number, right: number, bottom: number}} Rectangle in pixels; its
 *   right and lower edges are outside
 * @typedef {{column: number, row: number}} Place of a square
 */

/**
 * @param {Rectangle} rectangle
 * @param {number} side of a square
 * @returns {Place[]} the squares that have a part of it, row by row
 */
export function squaresIn({ left, top, right, bottom }, side) {
  const [first, last] = [Math.floor(left / side), Math.ceil(right / side)];
  const places = [];
  for (let row = Math.floor(top / side); row < Math.ceil(bottom / side); row += 1) {
    for (let column = first; column < last; column += 1) places.push({ column, row });
  }
  return places;
}

/**
 * @param {Place} place
 * @param {number} side of a square
 * @returns {Rectangle} what it covers
 */
export function squareAt({ column, row }, side) {
  const [left, top] = [column * side, row * side];
  return { left, top, right: left + side, bottom: top + side };
}

/**
 * @param {Rectangle} rectangle
 * @param {number} part of its size, by which it grows at each edge
 * @returns {Rectangle}
 */
export function grown({ left, top, right, bottom }, part) {
  const [across, down] = [(right - left) * part, (bottom - top) * part];
  return { left: left - across, top: top - down, right: right + across, bottom: bottom + down };
}

/**
 * @param {Rectangle} one
 * @param {Rectangle} other
 * @returns {boolean} whether they have a pixel in common
 */
export function meet(one, other) {
  return (
    one.left < other.right && other.left < one.right &&
    one.top < other.bottom && other.top < one.bottom
  );
}

/**
 * @param {Rectangle[]} rectangles at least one
 * @returns {Rectangle} the least one that has them all
 */
export function outlineOf(rectangles) {
  const edges = (name) => rectangles.map((it) => it[name]);
  return {
    left: Math.min(...edges("left")),
    top: Math.min(...edges("top")),
    right: Math.max(...edges("right")),
    bottom: Math.max(...edges("bottom")),
  };
}
