/**
 * @file The dialog that opens a collection.
 */
import { askUser } from "./basket_panel.js";
import { announce, askInDialog, element } from "./element.js";
import { idFrom, readOpening } from "./opening.js";
import { saveOpening } from "./queue.js";
import { say } from "./words.js";

/**
 * @param {string} id
 * @param {string} label
 * @param {HTMLInputElement} field
 * @param {string} [note]
 * @returns {HTMLElement}
 */
function labelled(id, label, field, note) {
  field.id = id;
  return element(
    "p", { class: "field" }, element("label", { for: id }, label), field,
    note ? element("span", { class: "note" }, note) : null,
  );
}

/**
 * Asks for a collection, and saves it into the queue.
 * @param {string[]} known the ids of collections that are there
 * @returns {Promise<string | null>} its id; null if the user went back
 */
export async function openCollection(known) {
  const title = element("input", { autocomplete: "off", maxlength: 128 });
  const id = element("input", { autocomplete: "off", maxlength: 64, spellcheck: "false" });
  const time = element("input", { autocomplete: "off", maxlength: 128 });
  let isOwn = false;
  id.addEventListener("input", () => (isOwn = id.value !== ""));
  title.addEventListener("input", () => {
    if (!isOwn) id.value = idFrom(title.value);
  });
  const read = () =>
    readOpening({ title: title.value, id: id.value, time: time.value }, known);
  const opening = await askInDialog(
    say("Open a collection"),
    [
      element("p", {}, say("It holds features of one kind, such as lamps. It cannot be deleted.")),
      labelled("open-title", say("Title"), title),
      labelled("open-id", say("Id"), id, say("It is in addresses, and never changes.")),
      labelled(
        "open-time", say("Time property, if there is one"), time,
        say(
          "The property by which features are filtered in time, such as the day a lamp was " +
            "set up.",
        ),
      ),
    ],
    [{ text: say("Open it"), value: read }, { text: say("Cancel"), value: null }],
  );
  if (opening === null) return null;
  const user = await askUser();
  if (!user) return null;
  await saveOpening(user, opening);
  announce(say("Saved: it is opened as soon as the server answers."));
  return opening.collection;
}
