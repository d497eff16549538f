/**
 * @file Whether the features of the view are there. It is noted on the map. Until they are, what
 * comes is painted together, and what can wait does so.
 */
import { idle } from "./idle.js";

export class Resting {
  #map;
  #layers;
  #turn = 0;

  /**
   * @param {import("../leaflet/leaflet.esm.js").Map} map
   * @param {import("./layers.js").Layers} layers
   */
  constructor(map, layers) {
    this.#map = map;
    this.#layers = layers;
  }

  /**
   * Notes on the map where it is, and that the features of the view are requested.
   * @returns {() => void} notes that they are there, unless they were requested again since
   */
  asks() {
    const { dataset } = this.#map.getContainer();
    const { lat, lng } = this.#map.getCenter();
    Object.assign(dataset, { x: lng, y: lat, zoom: this.#map.getZoom(), state: "asks" });
    this.#layers.gather(true);
    idle.hold();
    const turn = (this.#turn += 1);
    return () => {
      if (turn !== this.#turn) return;
      this.#layers.gather(false);
      idle.release();
      dataset.state = "rests";
    };
  }
}
