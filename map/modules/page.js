/**
 * @file The page: it puts the map, the panels, the basket and the queue together.
 */
import { keepAddress, takeAddress } from "./address_bar.js";
import { Areas } from "./areas.js";
import { AreasPanel } from "./areas_panel.js";
import { BackgroundImage } from "./background.js";
import { onChange } from "./channel.js";
import { Chosen } from "./chosen.js";
import { CollectionsPanel, viewText } from "./collections_panel.js";
import { onColours } from "./colours.js";
import { Editing } from "./editing.js";
import { DrawingBar } from "./drawing_bar.js";
import { Editor } from "./editor.js";
import { announce, byId } from "./element.js";
import { Ground } from "./ground.js";
import { kindsIn } from "./kinds.js";
import { Lookout } from "./lookout.js";
import { officeOf, readOffice } from "./office.js";
import { QueuePanel } from "./queue_panel.js";
import { showSettings } from "./settings_panel.js";
import { Snapping } from "./snapping.js";
import { State } from "./state.js";
import { readAll, readSetting } from "./store.js";
import { Tabs } from "./tabs.js";
import { listenForUndo } from "./undo_keys.js";
import { clock } from "./time.js";
import { compareName, isStartingAgain, startAgain } from "./towns.js";
import { View } from "./view.js";
import { Waiting } from "./waiting.js";
import { say } from "./words.js";

/** How near a click has to come, in pixels; a finger is wider than a pointer. */
const REACH = matchMedia("(pointer: coarse)").matches ? 24 : 10;
/** How many names of properties are offered, and of how many features they are. */
const MOST_NAMES = 40;
const MOST_READ = 2000;
/** How many features at one place are named. */
const MOST_NEAR = 9;
const AGAIN_SECONDS = 15;
/** While the view moves, the town's name is read this often. */
const COMPARE_SECONDS = 10;

export class Page {
  state = new State();
  #isKept = false;
  /** Whether the view is to show all features, once that is known. */
  #isSought = false;
  /** When the town's name was last read. */
  #compared = 0;
  #timer = 0;
  /** @type {AbortController | null} */
  #asking = null;
  office = officeOf({});

  /** @param {import("./seen.js").Seen} seen */
  constructor(seen) {
    this.seen = seen;
    const { state } = this;
    this.view = new View(byId("map"), seen, state, { onCounts: () => this.#showCounts() });
    this.tabs = new Tabs(byId("tabs"));
    this.background = new BackgroundImage(this.view.map);
    this.ground = new Ground(this.view.map);
    const { layers } = this.view;
    this.snapping = new Snapping(this.view.map, (box, except) => layers.drawnIn(box, except));
    const { ground, snapping } = this;
    const tools = { ground, snapping, bar: new DrawingBar(snapping) };
    this.editor = new Editor(state, this.view, tools, byId("panel-feature"), {
      describe: (collection) => ({
        fields: this.office.forms.get(collection) ?? [],
        kinds: kindsIn(seen.some(collection, MOST_READ), MOST_NAMES),
      }),
      onCancel: () => this.chosen.show(),
    });
    this.chosen = new Chosen(this, {
      onEdit: (collection, feature) => this.editing.edit(collection, feature),
    });
    this.editing = new Editing(this);
    const choose = (collection, id) => this.chosen.choose(collection, id, true);
    this.collectionsPanel = new CollectionsPanel(byId("panel-collections"), state, this.view, {
      onSearch: (text) =>
        this.chosen.search(text, (found) => this.collectionsPanel.showFound(found)),
      onChoose: choose,
      onOpen: () => this.editing.openCollection(),
    });
    this.queuePanel = new QueuePanel(byId("panel-queue"), {
      onSelect: choose,
      onChange: (batch, index) => this.editing.changeBatch(batch, index),
    });
    this.areas = new Areas(seen, () => this.areasPanel.show());
    this.areasPanel = new AreasPanel(byId("panel-collections"), this.areas, this.view);
    this.lookout = new Lookout(this, (before) => this.#showCollections(before));
    this.waiting = new Waiting(this, choose);
    keepAddress(state);
    this.#listen();
  }

  #listen() {
    const { map } = this.view;
    map.on("click", ({ latlng }) => this.#pressed(latlng));
    map.getContainer().addEventListener("keydown", (event) => this.#key(event));
    listenForUndo(this.state, this.editor);
    /** @type {NodeListOf<HTMLElement>} */
    const buttons = document.querySelectorAll("[data-add]");
    for (const button of buttons) {
      button.addEventListener("click", () => this.editing.add(button.dataset.add));
    }
    onChange("basket", () => this.waiting.show());
    onChange("queue", () => this.waiting.show());
    onChange("view", () => this.#caughtUp());
    onColours(() => this.#recolour());
    addEventListener("hashchange", () => this.#goToAddress());
    addEventListener("online", () => this.refresh());
    if (isSecureContext) addEventListener("online", () => this.areas.goOn());
    addEventListener("beforeunload", (event) => {
      const isUnsaved = this.state.isFormBegun || this.state.basket.edits.length > 0;
      if (!isUnsaved || isStartingAgain()) return;
      event.preventDefault();
      // Earlier browsers need a text instead.
      event.returnValue = "unsaved";
    });
    document.addEventListener("visibilitychange", () => document.hidden || this.refresh());
  }

  /** Shows what is known on this device, then requests from the server. */
  async start() {
    const address = takeAddress(this.state);
    await this.view.setCollections(await readAll("collections"));
    this.collectionsPanel.show();
    await this.waiting.show();
    if (!address.view) this.view.showAll();
    this.state.set("view", { isPlaced: address.view !== null });
    this.#isSought = address.view === null;
    const asked = this.refresh();
    const office = readOffice();
    await this.snapping.read();
    this.background.show((await readSetting("background")) ?? null, announce);
    this.#isKept = (await navigator.storage?.persist?.()) ?? false;
    this.office = await office;
    this.view.legends = this.office.legends;
    this.collectionsPanel.show();
    this.#recolour();
    this.ground.place(this.office);
    await this.#showSettings();
    await asked;
    this.#plan();
    this.state.set("view", { isPlaced: true });
    if (isSecureContext) this.areas.goOn();
    const { feature } = address;
    if (feature) await this.chosen.choose(feature.collection, feature.id, !address.view);
  }

  async #goToAddress() {
    const { feature } = takeAddress(this.state);
    if (feature) await this.chosen.choose(feature.collection, feature.id, false);
  }

  /**
   * Shows the collections and the features of the view as they are now.
   * @param {boolean} [canWait] whether a view that has to be requested may be so a little later
   */
  async refresh(canWait = false) {
    clearTimeout(this.#timer);
    this.#asking?.abort();
    const asking = new AbortController();
    this.#asking = asking;
    if (!(await this.#isHere())) return;
    await this.lookout.look(asking.signal, canWait);
    if (this.#asking === asking) this.#asking = null;
    this.#plan();
  }

  /**
   * Shows the collections that came.
   * @param {import("./api.js").Collection[]} before
   */
  #showCollections(before) {
    const titles = (all) => JSON.stringify(all.map(({ id, title }) => [id, title]));
    if (titles(this.view.collections) !== titles(before)) this.#recolour();
    this.collectionsPanel.show();
    if (this.#isSought) this.view.showAll();
    this.#isSought = false;
  }

  /** Plans when to look again: if something is not of now, or the server says what is new. */
  #plan() {
    clearTimeout(this.#timer);
    const { isProblem } = viewText(this.view.counts, clock);
    const isKnown = this.lookout.shown !== null;
    const fact = byId("last-counts");
    if (fact) fact.hidden = isKnown;
    const isDue = isProblem || this.lookout.isSilent || (isKnown && !document.hidden);
    if (!isDue) return;
    this.#timer = setTimeout(() => this.refresh(true), AGAIN_SECONDS * 1000);
  }

  /**
   * Goes to the town that is served, unless an edit is under way.
   * @returns {Promise<boolean>} whether this page's town is served, as far as is known
   */
  async #isHere() {
    this.#compared = Date.now();
    if ((await compareName()) !== "other") return true;
    const text = say("Another town is served here now. Cancel the edit, and reload.");
    if (this.state.isFormBegun) announce(text);
    else startAgain();
    return false;
  }

  #recolour() {
    this.view.redraw();
    this.chosen.outline();
  }

  #showCounts() {
    this.collectionsPanel.showCounts();
    const { text, isProblem } = viewText(this.view.counts, clock);
    const shown = byId("view-state");
    if (shown.textContent !== text) shown.textContent = text;
    shown.classList.toggle("problem", isProblem);
    this.#plan();
    this.chosen.renew();
    if (Date.now() - this.#compared > COMPARE_SECONDS * 1000) this.#isHere();
  }

  /** @param {import("../leaflet/leaflet.esm.js").LatLng} place where the map was pressed */
  #pressed(place) {
    if (this.state.form.isOpen) return;
    const near = this.view.near(place, REACH).slice(0, MOST_NEAR);
    const [first, ...others] = near.map(({ collection, feature: { id } }) => ({ collection, id }));
    if (first) this.chosen.choose(first.collection, first.id, false, others);
    else this.chosen.leave();
  }

  /** @param {KeyboardEvent} event on the map itself */
  #key(event) {
    if (event.target !== this.view.map.getContainer()) return;
    const { sketch } = this.editor;
    if (event.key === "Enter" || event.key === " ") {
      if (sketch) sketch.addMiddle();
      else this.#pressed(this.view.map.getCenter());
    } else if (event.key === "Backspace" && sketch) this.editor.undo();
    else if (event.key === "Escape" && this.state.form.isOpen) this.editor.cancel();
    else return;
    event.preventDefault();
  }

  /** A batch was accepted: what it made is what was last seen. */
  async #caughtUp() {
    await this.waiting.show();
    await this.refresh();
  }

  #showSettings() {
    const onBackground = (background) => this.background.show(background, announce);
    return showSettings(
      byId("panel-settings"),
      { office: this.office, isKept: this.#isKept, onBackground },
    );
  }
}
