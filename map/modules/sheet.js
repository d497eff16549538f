/**
 * @file A sheet of the view for the printer: the map with its scale, the day, and as of when it is.
 */
import { byId } from "./element.js";
import { clock } from "./time.js";
import { say } from "./words.js";

const STEP = 100;
const MOST_STEPS = 100;

/** @param {number} milliseconds */
function pause(milliseconds) {
  return new Promise((resolve) => setTimeout(resolve, milliseconds));
}

/**
 * Gives the map the size of a sheet, waits for its features, and prints it.
 * @param {import("./view.js").View} view
 */
export async function printSheet(view) {
  document.body.classList.add("sheet");
  try {
    view.map.invalidateSize({ animate: false });
    await view.refresh();
    const { dataset } = view.map.getContainer();
    for (let step = 0; dataset.state !== "rests" && step < MOST_STEPS; step += 1) await pause(STEP);
    await pause(STEP);
    const titles = view.switchedOn.map((it) => it.title);
    const words = { titles: titles.join(", "), asOf: clock(view.asOf), now: clock(Date.now()) };
    byId("sheet").textContent = say("{titles}. Shown as of {asOf}, printed {now}.", words);
    print();
  } finally {
    document.body.classList.remove("sheet");
    view.map.invalidateSize({ animate: false });
  }
}
