/**
 * @file One's own position on the grid, if the office placed it in WGS 84.
 *
 * @typedef {object} Fix
 * @property {import("./geometry.js").Position} position
 * @property {number} accuracy how far it may be off, in metres
 */
import * as L from "../leaflet/leaflet.esm.js";
import { colour } from "./colours.js";
import { toPlace } from "./layers.js";
import { say } from "./words.js";

const OPTIONS = { enableHighAccuracy: true, maximumAge: 2000, timeout: 30_000 };
/** What is shown is taken for the current position for this time, in milliseconds. */
const RECENT = 10_000;
/** The code of a fault of the device. */
const TIMEOUT = 3;
/** The map goes at least this near, as a zoom. */
const NEAR = 3;

export class OwnPosition {
  /** Whether the map follows it. */
  follows = false;
  #map;
  #earth;
  #onChange;
  #drawn = [];
  #watch = null;
  #isFirst = true;
  /** What was announced last: each fix is like the one before. */
  #announced = "";

  /**
   * @param {L.Map} map
   * @param {import("./place.js").Place} earth
   * @param {() => void} onChange is called if it is switched on or off, or followed or not
   */
  constructor(map, earth, onChange) {
    this.#map = map;
    this.#earth = earth;
    this.#onChange = onChange;
    map.on("dragstart", () => this.#follow(false));
  }

  /** @returns {boolean} whether it is shown */
  get isOn() {
    return this.#watch !== null;
  }

  /** @param {boolean} follows */
  #follow(follows) {
    if (this.follows === follows) return;
    this.follows = follows;
    this.#onChange();
  }

  /**
   * Goes on: from off to followed, from shown to followed again, from followed to off.
   * @param {(text: string) => void} tell
   */
  press(tell) {
    if (this.isOn && this.follows) return this.stop();
    const isNew = !this.isOn;
    this.#isFirst = true;
    this.#follow(true);
    return isNew ? this.#start(tell) : this.#center();
  }

  /** @param {(text: string) => void} tell */
  #start(tell) {
    this.#announced = "";
    const announceOnce = (kind, text) => {
      if (kind !== this.#announced) tell(text);
      this.#announced = kind;
    };
    const found = ({ coords }) => {
      const fix = this.#fixOf(coords);
      if (!fix) return announceOnce("outside", OUTSIDE);
      this.#show(fix);
      return announceOnce("there", say(
        "Your position, {accuracy}.",
        { accuracy: accuracyInWords(fix.accuracy) },
      ));
    };
    this.#watch = navigator.geolocation.watchPosition(
      found,
      (fault) => announceOnce(fault.message, unknown(fault)),
      OPTIONS,
    );
    this.#onChange();
  }

  stop() {
    navigator.geolocation.clearWatch(this.#watch);
    this.#watch = null;
    this.#shown = null;
    this.follows = false;
    this.#clear();
    this.#onChange();
  }

  /**
   * Requests the current position, whether it is shown or not, and brings it into view.
   * @returns {Promise<Fix>} it throws, with the reason, if it is not on the map
   */
  async take() {
    const isRecent = this.isOn && this.#shown && Date.now() - this.#shown.time < RECENT;
    const fix = isRecent ? this.#shown.fix : await this.#ask();
    const place = toPlace(fix.position);
    if (!this.#map.getBounds().contains(place)) {
      this.#map.setView(place, Math.max(NEAR, this.#map.getZoom()), { animate: false });
    }
    return fix;
  }

  /** @returns {Promise<Fix>} the position of now */
  async #ask() {
    // A device that does not move may report nothing new: then what is shown is still right.
    const options = { ...OPTIONS, maximumAge: 0, ...(this.#shown ? { timeout: RECENT } : {}) };
    const read = (resolve, reject) =>
      navigator.geolocation.getCurrentPosition(resolve, reject, options);
    try {
      const { coords } = await new Promise(read);
      const fix = this.#fixOf(coords);
      if (!fix) throw new Error(OUTSIDE);
      return fix;
    } catch (fault) {
      if (fault.code === TIMEOUT && this.#shown) return this.#shown.fix;
      throw fault instanceof Error ? fault : new Error(unknown(fault));
    }
  }

  #clear() {
    for (const layer of this.#drawn) layer.remove();
    this.#drawn = [];
  }

  /**
   * @param {GeolocationCoordinates} coords
   * @returns {Fix | null} null outside of the office's map
   */
  #fixOf({ longitude, latitude, accuracy }) {
    const position = this.#earth.toGrid({ longitude, latitude });
    return position && { position, accuracy };
  }

  /** @param {Fix} fix */
  #show(fix) {
    const { position, accuracy } = fix;
    this.#clear();
    const place = toPlace(position);
    const own = colour("own");
    const style = { interactive: false, color: own, weight: 1.5 };
    this.#drawn = [
      L.circle(place, { ...style, radius: accuracy, fillOpacity: 0.12 }).addTo(this.#map),
      L.circleMarker(
        place,
        { ...style, color: colour("paper"), fillColor: own, fillOpacity: 1, radius: 8, weight: 3 },
      ).addTo(this.#map),
    ];
    this.#shown = { fix, place, time: Date.now() };
    if (this.follows) this.#center();
  }

  /** @type {{fix: Fix, place: L.LatLng, time: number} | null} */
  #shown = null;

  /** Brings the position into the middle; the first time also near. */
  #center() {
    if (!this.#shown) return;
    const zoom = this.#map.getZoom();
    const near = this.#isFirst ? Math.max(NEAR, zoom) : zoom;
    this.#map.setView(this.#shown.place, near, { animate: false });
    this.#isFirst = false;
  }
}

const OUTSIDE = say("You are outside of the office's map.");

/** @param {{message: string}} fault of the device */
function unknown({ message }) {
  return say("The position is not known: {message}", { message });
}

/**
 * @param {number} metres
 * @returns {string}
 */
export function accuracyInWords(metres) {
  return say("good to {metres} m", { metres: Math.ceil(metres) });
}
