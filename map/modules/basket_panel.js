/**
 * @file The panel of the basket: what each edit is, and saving.
 */
import { redoInBasket, takeOutOfBasket, undoInBasket } from "./basket.js";
import { cut, readUser, userOf } from "./batch.js";
import { announce, askInDialog, button, element, renew } from "./element.js";
import { differences } from "./feature.js";
import { saveBasket } from "./queue.js";
import { readSetting, writeSetting } from "./store.js";
import { countedEdits, editText } from "./texts.js";
import { say } from "./words.js";

/**
 * @returns {Promise<string | null>} the name that is in keys; asked once
 */
export async function askUser() {
  const known = await readSetting("user");
  if (known) return known;
  const kept = element("p", { class: "note", role: "status" });
  const show = () => {
    const user = userOf(field.value);
    kept.textContent = user && user !== field.value ? say("In keys it is {user}.", { user }) : "";
  };
  const attributes = { id: "user", autocomplete: "username", maxlength: 60, oninput: show };
  const field = element("input", attributes);
  const note =
    say(
      "It is in the key of each batch, so that the office sees who sent it. Whether you may" +
        " send is decided by the server.",
    );
  const user = await askInDialog(
    say("Your name"),
    [
      element("p", {}, note),
      element("p", { class: "field" }, element("label", { for: "user" }, say("Name")), field), kept,
    ],
    [{ text: say("Save"), value: () => readUser(field.value) }, { text: say(
      "Cancel",
    ), value: null }],
  );
  if (user !== null) await writeSetting("user", user);
  return user;
}

/**
 * Moves the basket into the queue, after the user has answered the questions.
 * @param {import("./basket.js").Edit[]} edits
 */
async function save(edits) {
  let parts;
  try {
    parts = cut(edits).length;
  } catch (fault) {
    const close = [{ text: say("Close"), value: true }];
    return void (await askInDialog(say("Too large"), [element("p", {}, fault.message)], close));
  }
  if (parts > 1) {
    const text =
      say(
        "The basket is too large for one batch. It would go as {parts} batches: each is " +
          "taken as a whole or not at all, but not all of them together.",
        { parts },
      );
    const answers = [
      { text: say("Save as {parts} batches", { parts }), value: true },
      { text: say("Cancel"), value: false },
    ];
    if (!(await askInDialog(say("More than one batch"), [element("p", {}, text)], answers))) return;
  }
  const user = await askUser();
  if (!user) return;
  await saveBasket(user);
  announce(say("Saved: it is sent as soon as the server answers."));
}

/** Takes the last step of the basket back, and says so. */
export async function undoStep() {
  const edit = await undoInBasket();
  announce(edit ? say("Undone: {id}.", edit) : say("There is nothing to undo."));
}

/** Takes the step of the basket again that was taken back last, and says so. */
export async function redoStep() {
  const edit = await redoInBasket();
  announce(edit ? say("Redone: {id}.", edit) : say("There is nothing to redo."));
}

/**
 * @param {HTMLElement} panel
 * @param {import("./basket.js").Edit[]} edits
 * @param {{onSelect: (collection: string, id: string) => void, canSave: boolean,
 *   canUndo: boolean, canRedo: boolean}} options
 */
export function showBasket(panel, edits, { onSelect, canSave, canUndo, canRedo }) {
  const rows = edits.map((edit) =>
    element(
      "li", { class: `edit ${edit.op}` },
      element(
        "div", {},
        button(edit.id, () => onSelect(edit.collection, edit.id), { class: "link" }),
        element("span", { class: "note" }, ` ${edit.collection}`),
        element("div", {}, editText(edit, differences)),
      ),
      button(
        say("Take out"),
        () => takeOutOfBasket(edit),
        { class: "small", "aria-label": say("Take the edit of {name} out", { name: edit.id }) },
      ),
    ),
  );
  const text = edits.length
    ? say("These edits are on this device alone until they are saved. They are sent as one batch.")
    : say("No edits. Add a feature with the buttons on the map, or choose one and edit it.");
  const main = button(
    say("Save {count}", { count: countedEdits(edits.length) }),
    () => save(edits),
    { class: "main", id: "save" },
  );
  main.disabled = edits.length === 0 || !canSave;
  renew(
    panel,
    element("h2", {}, say("Basket")), element("p", { class: "note" }, text),
    element("ul", { class: "edits" }, ...rows),
    element(
      "p", { class: "buttons" }, main,
      button(say("Undo"), undoStep, { id: "basket-undo", disabled: !canUndo }),
      button(say("Redo"), redoStep, { id: "basket-redo", disabled: !canRedo }),
    ),
  );
}
