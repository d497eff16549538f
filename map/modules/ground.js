/**
 * @file The line below the map, which says where the pointer is, and one's own position: both in
 * degrees too if the office placed the grid on the earth. If the office named its reference system,
 * the line has east and north in it.
 */
import { toPosition } from "./draw.js";
import { announce, byId, element } from "./element.js";
import { metres } from "./geometry.js";
import { degreesInWords } from "./place.js";
import { OwnPosition } from "./position.js";
import { referenceInWords } from "./reference.js";

export class Ground {
  /** @type {import("./place.js").Place | null} */
  earth = null;
  /** @type {import("./reference.js").Reference | null} */
  reference = null;
  /** @type {OwnPosition | null} */
  own = null;
  #map;

  /** @param {import("../leaflet/leaflet.esm.js").Map} map */
  constructor(map) {
    this.#map = map;
    map.on("mousemove", ({ latlng }) => this.#show(latlng));
    map.on("move", () => this.#show(map.getCenter()));
    const { parentElement: main } = byId("map");
    let shown = 0;
    const measure = () => {
      const { offsetHeight } = byId("place");
      if (offsetHeight !== shown) main.style.setProperty("--place", `${offsetHeight}px`);
      shown = offsetHeight;
    };
    new ResizeObserver(measure).observe(byId("place"));
  }

  /** @param {import("../leaflet/leaflet.esm.js").LatLng} place */
  #show(place) {
    const [x, y] = toPosition(place);
    byId("place").replaceChildren(
      `${metres(x)} m, ${metres(y)} m`,
      this.reference ? "" : element("span", { class: "exact" }, ` · ${x}, ${y} mm`),
      ...this.beside([x, y], "").map((text) => ` · ${text}`),
    );
  }

  /**
   * @param {import("./geometry.js").Position} position
   * @param {string} [system] what is said of degrees
   * @returns {string[]} it in the office's system and in degrees, as far as the office says so
   */
  beside(position, system = " (WGS 84)") {
    const degrees = this.earth?.toDegrees(position);
    return [
      ...(this.reference ? [referenceInWords(this.reference, position)] : []),
      ...(degrees ? [degreesInWords(degrees) + system] : []),
    ];
  }

  /**
   * Takes what the office says of the grid, and offers one's own position if it can be shown.
   * @param {import("./office.js").Office} office
   */
  place({ place, reference }) {
    this.earth = place;
    this.reference = reference;
    this.#show(this.#map.getCenter());
    const button = byId("own-position");
    button.hidden = !this.earth || !navigator.geolocation;
    if (button.hidden) return;
    const own = new OwnPosition(this.#map, this.earth, () => {
      button.setAttribute("aria-pressed", String(own.isOn));
      button.classList.toggle("follows", own.follows);
    });
    button.addEventListener("click", () => own.press(announce));
    this.own = own;
  }
}
