// The time from a key to the screen, on pages of 1 KB, 100 KB and 1 MB: node --experimental-websocket measure.mjs CHROMIUM PROGRAM
// From the key's event to the frame that shows the letter, in the window where it is typed, and in the other one.
import { mkdtempSync, rmSync, writeFileSync } from "node:fs";
import { tmpdir } from "node:os";
import { join } from "node:path";
import { Browser, serve, until } from "./browser.mjs";
import { clickAfter } from "./person.mjs";

const KEYS = 40;
const [chromium, program] = process.argv.slice(2);
const folder = mkdtempSync(join(tmpdir(), "editor-"));
const browser = await Browser.start(chromium);

const WORDS = "A page of this many words is read, shown and typed in, here and there, as one of its <b>kind</b> would be. ";
function page(bytes) {
  const paragraph = `<p>${WORDS.repeat(5)}</p>\n`;
  return `<p>Here</p>\n${paragraph.repeat(Math.max(1, Math.round(bytes / paragraph.length)))}`;
}

// Notes when each letter's key came and when a frame with it was drawn, in one clock for all windows.
const watch = (person) => person.value(`(() => {
  const now = (time) => performance.timeOrigin + time, page = document.querySelector("#page");
  globalThis.pressed = [];
  globalThis.drawn = [];
  addEventListener("keydown", (event) => pressed.push(now(event.timeStamp)), true);
  new MutationObserver(() => requestAnimationFrame(() => setTimeout(() => {
    while (drawn.length < page.firstChild.textContent.length - "Here".length) drawn.push(now(performance.now()));
  }))).observe(page, { subtree: true, childList: true, characterData: true });
})()`);
const of = (list, part) => list.sort((a, b) => a - b)[Math.floor(part * (list.length - 1))].toFixed(0).padStart(6);

try {
  console.log("page      opens   here: median, 95%   there: median, 95%   (ms)");
  for (const [name, bytes] of [["1 KB", 1_000], ["100 KB", 100_000], ["1 MB", 1_000_000]]) {
    const file = join(folder, "page.html");
    writeFileSync(file, page(bytes));
    const server = await serve(program, file);
    const begin = performance.now();
    const here = await browser.edit(server.url);
    const opens = performance.now() - begin;
    const there = await browser.edit(server.url);
    await clickAfter(here, "Here");
    await watch(here);
    await watch(there);
    for (let k = 0; k < KEYS; k++) {
      await here.type("x");
      const shown = () => Promise.all([here, there].map((it) => it.value("drawn.length")));
      await until("both show it", async () => (await shown()).every((count) => count > k));
    }
    const [pressed, drawn, other] = await Promise.all([here.value("pressed"), here.value("drawn"), there.value("drawn")]);
    const mine = drawn.map((at, k) => at - pressed[k]), its = other.map((at, k) => at - pressed[k]);
    const [first, second] = [mine, its].map((list) => `${of(list, 0.5)}${of(list, 0.95)}`);
    console.log(`${name.padEnd(8)}${opens.toFixed(0).padStart(7)}   ${first}              ${second}`);
    await server.close();
    await here.close();
    await there.close();
  }
} finally {
  await browser.close();
  rmSync(folder, { recursive: true });
}
