/**
 * @file Things found by their extents, without walking over all of them: each is in one cell of a
 * grid, whose cells are the larger the larger the thing is.
 *
 * @typedef {import("./geometry.js").Box} Box
 */
import { overlaps } from "./geometry.js";

/** The side of the smallest cells in millimetres, as a power of two: 16 m. */
const LEAST = 14;
/** Cells on each side of the origin: more than the grid has of the smallest. */
const HALF = 2 ** 18;

/**
 * @param {Box} box
 * @returns {number} the level of a thing with this extent: cells have the side 2^level
 */
function levelOf({ x0, y0, x1, y1 }) {
  return Math.max(LEAST, Math.ceil(Math.log2(Math.max(1, x1 - x0, y1 - y0))));
}

/**
 * @param {number} column
 * @param {number} row
 * @returns {number} a number of the cell, which no other cell of its level has
 */
function keyOf(column, row) {
  return (column + HALF) * 2 * HALF + row + HALF;
}

/** @template {{box: Box}} Thing whose box stays as it is */
export class Cells {
  /** @type {Map<number, Map<number, Set<Thing>>>} the cells of each level that have things */
  #levels = new Map();

  /** @param {Thing} thing */
  add(thing) {
    const level = levelOf(thing.box);
    if (!this.#levels.has(level)) this.#levels.set(level, new Map());
    const cells = this.#levels.get(level);
    const key = this.#keyOf(thing.box, level);
    if (cells.has(key)) cells.get(key).add(thing);
    else cells.set(key, new Set([thing]));
  }

  /** @param {Thing} thing */
  remove(thing) {
    const level = levelOf(thing.box);
    const cells = this.#levels.get(level);
    const key = this.#keyOf(thing.box, level);
    const things = cells?.get(key);
    things?.delete(thing);
    if (things?.size === 0) cells.delete(key);
  }

  /**
   * @param {Box} box
   * @param {number} level
   * @returns {number} that of the cell with the south-western corner
   */
  #keyOf({ x0, y0 }, level) {
    return keyOf(Math.floor(x0 / 2 ** level), Math.floor(y0 / 2 ** level));
  }

  /**
   * @param {Box} box
   * @returns {Thing[]} the things whose extents meet the box, in no order
   */
  within(box) {
    const found = [];
    for (const [level, cells] of this.#levels) {
      for (const things of this.#near(cells, 2 ** level, box)) {
        for (const thing of things) if (overlaps(thing.box, box)) found.push(thing);
      }
    }
    return found;
  }

  /**
   * A thing reaches at most one cell further than the one that it is in.
   * @param {Map<number, Set<Thing>>} cells of a level
   * @param {number} side of them
   * @param {Box} box
   * @returns {Iterable<Set<Thing>>} of the cells whose things may meet the box
   */
  *#near(cells, side, { x0, y0, x1, y1 }) {
    const [west, east] = [Math.floor(x0 / side) - 1, Math.floor(x1 / side)];
    const [south, north] = [Math.floor(y0 / side) - 1, Math.floor(y1 / side)];
    if ((east - west + 1) * (north - south + 1) > cells.size) return yield* cells.values();
    for (let column = west; column <= east; column += 1) {
      for (let row = south; row <= north; row += 1) {
        const things = cells.get(keyOf(column, row));
        if (things) yield things;
      }
    }
    return undefined;
  }
}
