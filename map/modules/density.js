/**
 * @file A view that has more features than are drawn, as cells: how many features each cell has.
 *
 * @typedef {import("./geometry.js").Box} Box
 */

/** About how many cells a view has, each of which is a request. */
const CELLS = 24;

/**
 * @param {number} width of the view, in any unit
 * @param {number} height
 * @returns {{columns: number, rows: number}} about as many squares as are wanted
 */
export function gridOf(width, height) {
  const columns = Math.max(1, Math.round(Math.sqrt((CELLS * width) / height)));
  return { columns, rows: Math.max(1, Math.floor(CELLS / columns)) };
}

/**
 * @param {Box} box in whole millimetres
 * @param {number} columns
 * @param {number} rows
 * @returns {Box[]} cells that cover the box, no two of which have a position in common
 */
export function cellsOf({ x0, y0, x1, y1 }, columns, rows) {
  const cut = (low, high, parts, part) => low + Math.floor(((high + 1 - low) * part) / parts);
  const cells = [];
  for (let row = 0; row < rows; row += 1) {
    for (let column = 0; column < columns; column += 1) {
      cells.push({
        x0: cut(x0, x1, columns, column),
        y0: cut(y0, y1, rows, row),
        x1: cut(x0, x1, columns, column + 1) - 1,
        y1: cut(y0, y1, rows, row + 1) - 1,
      });
    }
  }
  return cells;
}

/**
 * @param {number} count of a cell
 * @param {number} most of all cells
 * @returns {number} how dark it is drawn, from 0 to 1
 */
export function shade(count, most) {
  return count === 0 ? 0 : 0.1 + 0.4 * Math.sqrt(count / most);
}
