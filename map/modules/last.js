/**
 * @file The properties of the feature that was added last to each collection, on this device.
 */
import { result, transact } from "./store.js";

const SETTING = "last properties";

/**
 * @param {string} collection
 * @returns {Promise<object | null>} null if none was added
 */
export async function readLast(collection) {
  const lasts = await transact(
    ["settings"],
    "readonly",
    (table) => result(table.get(SETTING)),
  );
  return lasts?.get(collection) ?? null;
}

/**
 * @param {import("./basket.js").Edit} edit one that adds a feature
 */
export function keepLast({ collection, feature }) {
  if (feature.properties === null) return Promise.resolve();
  return transact(["settings"], "readwrite", async (table) => {
    const lasts = (await result(table.get(SETTING))) ?? new Map();
    lasts.set(collection, feature.properties);
    await result(table.put(lasts, SETTING));
  });
}
