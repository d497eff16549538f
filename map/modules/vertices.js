/**
 * @file Which vertex of the features around is nearest to a place.
 *
 * @typedef {import("./geometry.js").Geometry} Geometry
 * @typedef {import("./geometry.js").Position} Position
 */
import { paths } from "./geometry.js";

/**
 * @param {Iterable<Geometry>} geometries
 * @param {Position} place
 * @param {number} reach in millimetres
 * @returns {Position | null} the nearest position of all that is within reach, without its height;
 *   the first of several as near
 */
export function nearestVertex(geometries, [x, y], reach) {
  let [nearest, least] = [null, reach * reach];
  for (const geometry of geometries) {
    for (const { positions } of paths(geometry)) {
      for (const position of positions) {
        const square = (position[0] - x) ** 2 + (position[1] - y) ** 2;
        if (square > least || (square === least && nearest)) continue;
        [nearest, least] = [position, square];
      }
    }
  }
  return nearest && [nearest[0], nearest[1]];
}
