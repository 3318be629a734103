// A page of 1 MB: what is seen is drawn, and the rest as it comes near.
import assert from "node:assert/strict";
import { until } from "../browser.mjs";
import { clickAfter, html, keys, selectAll } from "../person.mjs";

const WORDS = "A page of this many words is read, shown and typed in, here and there, as one of its <b>kind</b> would be. ";
export const page = `<p>Here</p>\n${`<p>${WORDS.repeat(5)}</p>\n`.repeat(1800)}<p>There</p>`;

const MOST = 12_000; // milliseconds of the processor's, some ten times of what is taken

async function workOf(person) {
  const { metrics } = await person.call("Performance.getMetrics");
  return metrics.find(({ name }) => name === "TaskDuration").value * 1000;
}

export async function check(browser, url) {
  const ada = await browser.open("about:blank");
  await ada.call("Performance.enable", { timeDomain: "threadTicks" }); // what others of the machine take doesn't count
  const blank = await workOf(ada);
  await ada.go(url);
  const opens = (await workOf(ada)) - blank;
  const drawn = await ada.value("document.querySelectorAll('#page p').length");
  assert.ok(drawn < 200, `${drawn} paragraphs are drawn at first`);
  // a key is shown before the browser draws again
  await clickAfter(ada, "Here");
  await ada.value(`addEventListener("beforeinput", () => {
    globalThis.shown = document.querySelector("#page p").textContent;
  }, { once: true })`);
  await ada.type("x");
  assert.equal(await until("a key is seen", () => ada.value("globalThis.shown")), "Herex");
  await keys(ada, "Backspace");
  // to the end, where the last ones are drawn; typing there, and back
  await keys(ada, "ctrl+End");
  await ada.type("!");
  assert.ok((await html(ada)).endsWith("There!</p>"));
  await keys(ada, "ctrl+Home");
  await clickAfter(ada, "Here");
  await selectAll(ada);
  const before = await workOf(ada);
  await keys(ada, "Backspace");
  const erases = (await workOf(ada)) - before;
  assert.equal(await html(ada), "<p></p>");
  await keys(ada, "ctrl+z");
  await until("all is there again", async () => (await html(ada)).startsWith(page.slice(0, 1000)));
  assert.ok(opens < MOST, `opening took ${opens.toFixed()} ms of work`);
  assert.ok(erases < MOST, `to erase all took ${erases.toFixed()} ms`);
  await ada.close();
  return { opens, erases };
}
