/**
 * @file The geometry in the form: drawn, typed in metres, and moved. Each step can be taken back.
 *
 * @typedef {import("./geometry.js").Geometry} Geometry
 * @typedef {import("./geometry.js").Position} Position
 * @typedef {import("./sketch.js").Sketched} Sketched
 * @typedef {"Point" | "LineString" | "Polygon"} Drawn
 * @typedef {object} Draft
 * @property {Geometry | null} geometry null if none was drawn yet
 * @property {number | null} accuracy how far it may be off, in metres, if it was measured
 * @property {Sketched | null} sketch the positions on their way to it, or to a hole in it
 */
import { announce, button, element, isPhone, takeBack } from "./element.js";
import { describe, middleOf, paths } from "./geometry.js";
import { takenAgain, takenBack, withStep } from "./history.js";
import { measured, measuresInWords, sketchMeasured } from "./measure.js";
import { accuracyInWords } from "./position.js";
import { positionFields, stepField, typedPosition } from "./positions_form.js";
import { Shape } from "./shape.js";
import { Sketch, newSketch } from "./sketch.js";
import { countedPositions } from "./texts.js";
import { say } from "./words.js";

/** @type {Record<Drawn, import("./sketch.js").SketchKind>} */
const KINDS = { Point: "point", LineString: "line", Polygon: "ring" };
/** @type {Record<Drawn, string>} */
const OFFERS = {
  Point: say("Draw a point"),
  LineString: say("Draw a line"),
  Polygon: say("Draw a polygon"),
};
/** Up to this number of positions, they are shown at once. */
const OPEN_ROWS = 16;
const HOW = isPhone()
  ? say("Press on the map, or move it under the cross.")
  : say("Press on the map, or Enter there for its middle, or type metres.");

export class GeometryForm {
  /** @type {Sketch | null} */
  sketch = null;
  /** @type {Shape | null} */
  shape = null;
  element = element("div", { class: "geometry" });
  #map;
  #state;
  #tools;
  #listener;

  /**
   * @param {import("../leaflet/leaflet.esm.js").Map} map
   * @param {import("./state.js").State} state
   * @param {{ground: import("./ground.js").Ground, snapping: import("./snapping.js").Snapping,
   *   bar: import("./drawing_bar.js").DrawingBar}} tools
   * @param {{onProblem: (text: string) => void, onMeasured: (accuracy: number | null) => void}}
   *   listener gets no text once the problem is gone
   */
  constructor(map, state, tools, listener) {
    this.#map = map;
    this.#state = state;
    this.#tools = tools;
    this.#listener = listener;
    tools.bar.open({ onUndo: () => this.undo(), onRedo: () => this.redo() });
  }

  /** @returns {Draft} what is drawn now */
  get #draft() {
    return this.#state.form.draft;
  }

  /** @returns {Geometry | null} what was drawn; it throws if that is not finished */
  value() {
    if (this.sketch?.isEnough) this.sketch.finish();
    if (this.sketch) throw new Error(say("The geometry is not finished."));
    return this.shape?.geometry ?? null;
  }

  /** Ends drawing; what is shown of it stays. */
  stop() {
    this.#rest();
    this.#tools.bar.close();
  }

  /** Takes what is drawn from the map. */
  #rest() {
    takeBack(HOW);
    this.sketch?.stop();
    this.shape?.stop();
    [this.sketch, this.shape] = [null, null];
  }

  /** Takes the last step back. */
  undo() {
    this.#walk(takenBack(this.#state.form.history), "before");
  }

  /** Takes the step again that was taken back last. */
  redo() {
    this.#walk(takenAgain(this.#state.form.history), "after");
  }

  /**
   * @param {{history: import("./history.js").History<Draft>,
   *   step: import("./history.js").Step<Draft> | null}} walked
   * @param {"before" | "after"} side
   */
  #walk({ history, step }, side) {
    if (!step) return;
    const { accuracy } = this.#draft;
    this.#state.set("form", { history });
    this.#show(step[side]);
    if (step[side].accuracy !== accuracy) this.#listener.onMeasured(step[side].accuracy);
  }

  /** @param {Draft} draft the draft after a step */
  #step(draft) {
    const history = withStep(this.#state.form.history, this.#draft, draft);
    this.#state.set("form", { draft, history });
    this.#showSteps();
  }

  #showSteps() {
    const { done, undone } = this.#state.form.history;
    this.#tools.bar.allow({ canUndo: done.length > 0, canRedo: undone.length > 0 });
  }

  /**
   * Lets the positions of a geometry be moved.
   * @param {Geometry} geometry
   */
  adjust(geometry) {
    this.#show({ geometry, accuracy: null, sketch: null });
  }

  /** Offers to draw a geometry if the form has none. */
  offer() {
    this.#show({ geometry: null, accuracy: null, sketch: null });
  }

  /**
   * Lets a geometry be drawn from its first position on.
   * @param {Drawn} type
   */
  draw(type) {
    this.#show({ geometry: null, accuracy: null, sketch: newSketch(KINDS[type]) });
    announce(HOW);
  }

  /** @param {Draft} draft the draft from now on */
  #show(draft) {
    this.#rest();
    this.#state.set("form", { draft });
    const { geometry, sketch } = draft;
    if (geometry) this.#showShape(geometry, sketch !== null);
    if (sketch) this.#showSketch(sketch);
    else this.#tools.bar.place(null, null, []);
    if (!geometry && !sketch) this.#showOffers();
    this.#showSteps();
  }

  #showOffers() {
    /** @type {Drawn[]} */
    const types = ["Point", "LineString", "Polygon"];
    const draw = (type) => {
      this.#step({ ...this.#draft, sketch: newSketch(KINDS[type]) });
      this.#show(this.#draft);
      announce(HOW);
    };
    const offers = types.map((type) => button(OFFERS[type], () => draw(type)));
    this.#tools.bar.measure("");
    this.element.replaceChildren(
      element("p", {}, say("It has no geometry.")),
      element("p", { class: "buttons" }, ...offers),
    );
  }

  /** @param {Sketched} sketched */
  #showSketch(sketched) {
    const { kind } = sketched;
    const { bar, ground, snapping } = this.#tools;
    const measure = (positions) => bar.measure(measuresInWords(sketchMeasured(kind, positions)));
    const sketch = new Sketch(this.#map, snapping, sketched, {
      onChange: () => {
        const { positions, accuracies } = sketch;
        const now = { kind, positions: [...positions], accuracies: [...accuracies] };
        this.#step({ ...this.#draft, sketch: now });
        show();
      },
      onPointer: measure,
      onDone: (positions, accuracy) => this.#drawn(kind, positions, accuracy),
    });
    this.sketch = sketch;
    const count = element("p", { role: "status" });
    const typed = typedPosition((position) => {
      this.#listener.onProblem(position ? "" : say("East and north are metres of the grid."));
      if (position) sketch.add(position);
    });
    const finish = button(say("Finish"), () => sketch.finish(), { class: "finish" });
    const show = () => {
      const { positions } = sketch;
      const measures = measuresInWords(sketchMeasured(kind, positions));
      const words = [countedPositions(positions.length), measures].filter(Boolean).join(", ");
      count.textContent = kind === "point" ? "" : words;
      measure(positions);
      finish.disabled = !sketch.isEnough;
    };
    show();
    const steps = kind === "point" ? [] : [finish];
    // On a phone the map is in view, and this part of the form may not be.
    bar.place(sketch, ground.own, isPhone() ? steps : []);
    this.element.replaceChildren(
      element("p", {}, HOW),
      typed, count,
      steps.length > 0 && !isPhone() ? element("p", { class: "buttons" }, ...steps) : "",
    );
  }

  /**
   * @param {import("./sketch.js").SketchKind} kind
   * @param {Position[]} positions
   * @param {number | null} accuracy
   */
  #drawn(kind, positions, accuracy) {
    const { geometry: outer } = this.#draft;
    const forms = {
      point: { type: "Point", coordinates: positions[0] },
      line: { type: "LineString", coordinates: positions },
      ring: { type: "Polygon", coordinates: [...(outer?.coordinates ?? []), positions] },
    };
    // A hole is drawn in what is there, and says nothing of how that was measured.
    const kept = outer ? this.#draft.accuracy : accuracy;
    this.#step({ geometry: forms[kind], accuracy: kept, sketch: null });
    this.#show(this.#draft);
    if (!outer) this.#listener.onMeasured(accuracy);
  }

  /**
   * @param {Geometry} geometry
   * @param {boolean} isFixed whether a hole is drawn in it
   */
  #showShape(geometry, isFixed) {
    const { bar, ground, snapping } = this.#tools;
    const handles = element("p", { class: "note", role: "status" });
    const moved = () => {
      if (this.#draft.accuracy !== null) this.#listener.onMeasured(null);
      this.#step({ geometry: structuredClone(shape.geometry), accuracy: null, sketch: null });
      show();
    };
    const measure = (drawn) => bar.measure(measuresInWords(measured(drawn)));
    const shape = new Shape(this.#map, snapping, geometry, isFixed, {
      onChange: moved,
      onDrag: measure,
      onHandles: (inView, shown) => {
        const count = countedPositions(inView);
        const text = say("{count} in view: zoom in to move one.", { count });
        handles.textContent = shown < inView ? text : "";
      },
    });
    this.shape = shape;
    if (isFixed) return;
    const count = paths(geometry).reduce((sum, { positions }) => sum + positions.length, 0);
    const words = element("p", { class: "what" });
    const beside = element("p", { class: "note beside" });
    const table = element("div", { class: "positions" });
    const show = () => {
      const { accuracy } = this.#draft;
      const measures = measuresInWords(measured(shape.geometry));
      const good = accuracy === null ? "" : accuracyInWords(accuracy);
      const all = [describe(shape.geometry), measures, good].filter(Boolean);
      words.textContent = all.join(", ");
      measure(shape.geometry);
      beside.textContent = ground.beside(middleOf(shape.geometry)).join(" · ");
      if (!table.contains(document.activeElement)) table.replaceChildren(...positionFields(shape));
    };
    show();
    const hole = () => {
      this.#step({ ...this.#draft, sketch: newSketch("ring") });
      this.#show(this.#draft);
      announce(HOW);
    };
    this.element.replaceChildren(
      words, beside, handles, stepField(shape),
      shape.geometry.type === "Polygon"
        ? element("p", { class: "buttons" }, button(say("Add a hole"), hole))
        : "",
      element("details", { open: count <= OPEN_ROWS },
        element("summary", {}, say("Positions in metres")), table),
    );
  }
}
