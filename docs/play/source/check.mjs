// Opens the playground in headless Chromium, from the disk, and compares the replies to each script that it has to pick from.
// usage: tools/play --picks | node [--experimental-websocket] docs/play/source/check.mjs CHROMIUM [PICTURE]
import assert from "node:assert/strict";
import { readFileSync, writeFileSync } from "node:fs";
import { Browser, until } from "../../../examples/editor/browser.mjs";

const [chromium, picture] = process.argv.slice(2);
const picks = JSON.parse(readFileSync(0, "utf8"));
const ADDRESS = new URL("../index.html", import.meta.url);
const SHOWN = "[...document.querySelectorAll('#replies li')].map((it) => it.textContent + '\\n').join('')";
const PAGES = "[...document.querySelectorAll('#pages pre')].map((it) => it.textContent)";

const browser = await Browser.start(chromium);
try {
  const window = await opened(ADDRESS);
  const names = await window.value("[...document.querySelectorAll('#picks option')].map((it) => it.textContent)");
  assert.deepEqual(names, picks.map((it) => it.name));
  for (const [index, { name, script, replies }] of picks.entries()) {
    await window.value(`(picks => { picks.value = ${index}; picks.dispatchEvent(new Event("change")); })(document.getElementById("picks"))`);
    assert.equal(await window.value(SHOWN), replies, name);
    assert.equal(await window.value("decodeURIComponent(location.hash.slice(1))"), script, name);
  }
  await checkLink();
  console.log(`playground: the replies to ${picks.length} scripts, and a link: ok`);
  if (picture) await draw();
} finally {
  await browser.close();
}

async function opened(address) {
  const window = await browser.open(String(address));
  await until("the playground is ready", () => window.value("document.documentElement?.dataset.ready"));
  return window;
}

// A link holds its script. What a page in it would run or load isn't.
async function checkLink() {
  const page = '<p>ab</p><img src="https://example.org/x.png" onerror="parent.ran = 1"><p><a href="javascript:parent.ran = 1">c</a></p>';
  const lines = [{ do: "open", page, sites: 2 }, { do: "text", at: 2, text: "X", site: 1 }].map((it) => JSON.stringify(it) + "\n");
  const window = await opened(`${ADDRESS}#${encodeURIComponent(lines.join(""))}`);
  assert.equal(await window.value(SHOWN), "ok 13\nok 14\n");
  assert.deepEqual(await window.value(PAGES), [page, page.replace("ab", "aXb")]);
  assert.equal(await window.value("document.querySelector('iframe').getAttribute('sandbox')"), "");
  assert.equal(await window.value("globalThis.ran"), undefined);
  assert.deepEqual(await window.value("performance.getEntriesByType('resource').map((it) => it.name)"), []);
  const cut = await opened(`${ADDRESS}#%7`);
  assert.equal(await cut.value(SHOWN), "no bad_json\n");
}

async function draw() {
  const { script } = picks.find((it) => it.name === "Paragraphs as a list");
  const window = await opened(`${ADDRESS}#${encodeURIComponent(script)}`);
  await window.call("Emulation.setDeviceMetricsOverride", { width: 1000, height: 430, deviceScaleFactor: 1, mobile: false });
  writeFileSync(new URL(picture, ADDRESS), await window.picture());
}
