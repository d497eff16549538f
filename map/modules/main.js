/**
 * @file Starts the page: the town that is served, what was seen of it, the copy of the page on this
 * device, and the sender.
 */
import { announce, byId } from "./element.js";
import { Page } from "./page.js";
import { Seen } from "./seen.js";
import { startSender } from "./sender.js";
import { enterTown } from "./towns.js";
import { say, sayDocument } from "./words.js";

/** Keeps the page itself on this device, and says when another version is there. */
async function keepPage() {
  navigator.serviceWorker.addEventListener("message", ({ data }) => {
    if (data === "new version") announce(say("A new version of this page is here: reload it."));
  });
  await navigator.serviceWorker.register("service-worker.js");
}

addEventListener("unhandledrejection", ({ reason }) => {
  announce(say("This did not work: {reason}", { reason: reason?.message ?? reason }));
});

try {
  sayDocument();
  await enterTown();
  const page = new Page(await Seen.open());
  if (isSecureContext) {
    keepPage().catch(console.error);
    startSender();
  } else {
    byId("insecure").hidden = false;
  }
  await page.start();
  document.documentElement.dataset.ready = "true";
} catch (fault) {
  announce(say("The page cannot start: {message}", { message: fault.message }));
  throw fault;
}
