/**
 * @file The panel of settings: the name in keys, the image in the background, and what the page is.
 */
import { ownAddress } from "./background.js";
import { readUser } from "./batch.js";
import { button, element } from "./element.js";
import { metres, readMetres } from "./geometry.js";
import { readSetting, writeSetting } from "./store.js";
import { say } from "./words.js";

const CORNERS = { x0: say("West"), y0: say("South"), x1: say("East"), y1: say("North") };

/**
 * @param {string} id
 * @param {string} label
 * @param {HTMLElement} field
 */
function labelled(id, label, field) {
  field.id = id;
  return element("p", { class: "field" }, element("label", { for: id }, label), field);
}

/**
 * @returns {Promise<HTMLElement>} the form for the name
 */
async function nameForm() {
  const field = element(
    "input",
    { value: (await readSetting("user")) ?? "", autocomplete: "username", maxlength: 60 },
  );
  const told = element("p", { class: "note", role: "status" });
  const save = async (event) => {
    event.preventDefault();
    try {
      field.value = readUser(field.value);
      await writeSetting("user", field.value);
      told.textContent = say("Kept.");
    } catch (fault) {
      told.textContent = fault.message;
    }
  };
  return element(
    "form", { onsubmit: save }, element("h2", {}, say("Your name")),
    labelled(
      "setting-user",
      say("Name in the keys of your batches"),
      field,
    ), element("button", { type: "submit" }, say("Keep")), told,
  );
}

/**
 * @param {(background: import("./background.js").Background | null) => void} onBackground
 * @returns {Promise<HTMLElement>} the form for the image
 */
async function imageForm(onBackground) {
  const known = await readSetting("background");
  const url = element("input", { value: known?.url ?? "", placeholder: "/images/plan.png" });
  const file = element("input", { type: "file", accept: "image/*" });
  const corners = Object.entries(CORNERS).map(([name, text]) => {
    const value = known ? metres(known.box[name]) : "";
    return {
      name,
      text,
      field: element("input", { value, inputmode: "decimal", class: "metres" }),
    };
  });
  const told = element("p", { class: "problem", role: "alert" });
  const show = async (event) => {
    event.preventDefault();
    told.textContent = "";
    const [x0, y0, x1, y1] = corners.map(({ field }) => readMetres(field.value));
    const box = { x0, y0, x1, y1 };
    if (Object.values(box).includes(null) || box.x0 >= box.x1 || box.y0 >= box.y1) {
      return void (told.textContent = say(
        "Corners are metres, west below east and south below north.",
      ));
    }
    const chosen = file.files[0] ?? (url.value ? null : known?.file ?? null);
    const address = url.value ? ownAddress(url.value) : "";
    if (address === null) {
      return void (told.textContent = say(
        "The image has to lie on {origin}, or be a file.",
        { origin: location.origin },
      ));
    }
    if (!address && !chosen) {
      return void (told.textContent = say("Name an image, or choose a file."));
    }
    const background = { url: address, file: chosen, box };
    await writeSetting("background", background);
    return onBackground(background);
  };
  const clear = button(say("Take it away"), async () => {
    await writeSetting("background", null);
    onBackground(null);
  });
  return element(
    "form", { onsubmit: show }, element("h2", {}, say("Image in the background")),
    element(
      "p",
      { class: "note" },
      say(
        "An image that lies on {origin}, or a file of this device. Images of other " +
          "addresses are not asked for.",
        { origin: location.origin },
      ),
    ),
    labelled("image-url", say("Address"), url), labelled("image-file", say("or a file"), file),
    element(
      "div",
      { class: "field pair" },
      ...corners.map(({ name, text, field }) => labelled(`image-${name}`, `${text} (m)`, field)),
    ),
    element(
      "p",
      { class: "buttons" },
      element("button", { type: "submit" }, say("Show it")),
      clear,
    ), told,
  );
}

/**
 * @param {HTMLElement} panel
 * @param {{office: import("./office.js").Office, isKept: boolean,
 *   onBackground: (background: import("./background.js").Background | null) => void}} options
 */
export async function showSettings(panel, { office, isKept, onBackground }) {
  const { place: earth, reference } = office;
  const error = earth && Math.max(1, Math.ceil(earth.error * 1000));
  const facts = [
    earth
      ? say(
        "The grid is placed by {system}, good to {error} mm.",
        { system: earth.system || say("the office"), error },
      )
      : say("The office has not placed the grid in WGS 84, so your own position is not shown."),
    reference ? say("East and north are shown in {system} too.", reference) : "",
    isKept
      ? say("The browser keeps edits and batches until they are sent.")
      : say("The browser may clear what waits here if the device runs out of room."),
    say("Photos are not kept."),
    ...office.problems.map((problem) => say(
      "map.json is not used as a whole: {problem}.",
      { problem },
    )),
  ];
  const last = say(
    "Between the look for changes of others and a batch, another may write: the last " +
      "batch counts.",
  );
  panel.replaceChildren(
    await nameForm(), await imageForm(onBackground), element("h2", {}, say("Good to know")),
    element(
      "ul",
      { class: "facts" },
      ...facts.filter(Boolean).map((text) => element("li", {}, text)),
      // It is hidden once the server says which state it shows.
      element("li", { id: "last-counts" }, last),
    ),
  );
}
