// Drives windows with real keys and the mouse, and compares what they show with what their sites hold. Called by `check`:
// node check.mjs CHROMIUM PROGRAM [PICTURE], where a picture of two windows is written to.
import assert from "node:assert/strict";
import { execFileSync } from "node:child_process";
import { mkdtempSync, readFileSync, rmSync, writeFileSync } from "node:fs";
import { tmpdir } from "node:os";
import { join } from "node:path";
import { fileURLToPath } from "node:url";
import { World, compile } from "../../clients/node/index.js";
import { Browser, onceMore, serve, serveFiles } from "./browser.mjs";
import * as ahead from "./checks/ahead.mjs";
import * as big from "./checks/big.mjs";
import * as company from "./checks/company.mjs";
import * as http from "./checks/http.mjs";
import * as joining from "./checks/joining.mjs";
import * as pictures from "./checks/pictures.mjs";
import * as single from "./checks/single.mjs";
import { run } from "./checks/steps.mjs";
import * as whole from "./checks/whole.mjs";
import { clickAfter, dragOver, html, meet, notice } from "./person.mjs";

const ONLY = new RegExp(process.env.ONLY ?? "");

const [chromium, program, picture] = process.argv.slice(2);
const folder = mkdtempSync(join(tmpdir(), "editor-"));
const here = (path) => fileURLToPath(new URL(path, import.meta.url));
const sample = readFileSync(here("sample.html"), "utf8");
// what must never run
const SCRIPTS = `<script>hacked = 1</script>
<p>Ends <img src="x" onerror="hacked = 1"><a href="javascript:hacked = 1" onclick="hacked = 1">here</a>.</p>
`;
// two, so that both ways can be gone at once: each has a clipboard of its own
const [browser, other] = await Promise.all([Browser.start(chromium), Browser.start(chromium)]);
let failed = 0;
const OF_LINES = new Set(["typing", "selecting", "carrying", "moving", "undo"]);

// What fails is done once more, by another act where the first one left something behind.
async function check(name, act, again = act) {
  if (!ONLY.test(name)) return;
  const begin = performance.now();
  try {
    await onceMore(name, (tries) => (tries ? again() : act()));
  } catch (error) {
    failed++;
    console.error(`${name}: ${error.message}\n${error.stack}`);
  }
  if (process.env.VERBOSE) console.log(`${(performance.now() - begin).toFixed().padStart(6)} ms  ${name}`);
}

// Files with these pages in a folder of their own.
function written(pages) {
  const to = mkdtempSync(join(folder, "pages-"));
  return pages.map((page, k) => {
    const path = join(to, `${k}.html`);
    writeFileSync(path, page);
    return path;
  });
}

// The editor's server, with these pages. `of` gives the address of one, by its number.
async function withServer(pages, ...words) {
  const server = await serve(program, ...words, ...written(pages));
  return { ...server, of: (k) => server.url.replace(/page=.*/, `page=${k}.html`) };
}

// The same files, given by a web server that knows nothing of them.
async function withoutServer(pages) {
  const to = mkdtempSync(join(folder, "files-"));
  execFileSync(process.execPath, [here("files.mjs"), to, ...written(pages)]);
  const server = await serveFiles(to);
  return { ...server, of: (k) => `${server.url}?page=${k}.html` };
}

// Windows on a page, for as long as the act takes.
async function visit(browser, url, act, count = 1) {
  const people = [];
  try {
    while (people.length < count) people.push(await browser.edit(url)); // one after the other, so that each has the site it is known by
    await act(...people);
  } catch (error) {
    const notices = await Promise.all(people.map((person) => notice(person).catch(String)));
    error.message += ` [${notices.join("; ")}]`;
    throw error;
  } finally {
    await Promise.all(people.map((person) => person.close()));
  }
}

// What is given to a server, or to what is like one, that is there for as long as the act takes.
async function using(start, act) {
  const server = await start;
  try {
    await act(server);
  } finally {
    await server.close();
  }
}

// The cases of one window. Without a server those are left out that go by nothing of it.
async function checkSingle(way, browser, start, isAll) {
  const all = [...single.cases, ...(isWhole ? whole.cases : []), ...single.boxes].filter(({ part }) => isAll || OF_LINES.has(part));
  await using(start(all.map(({ page }) => page)), async (server) => {
    for (const [k, { name, page, steps, wanted }] of all.entries()) {
      const act = async (ada) => {
        if (!steps) return assert.deepEqual(await single.boxesOf(ada), wanted);
        await run(ada, steps);
        return assert.equal(await meet(ada), wanted);
      };
      const again = () => using(start([page]), (fresh) => visit(browser, fresh.of(0), act));
      await check(`${way}: ${name}`, () => visit(browser, server.of(k), act), again);
    }
  });
}

// Two windows on a page of a new server.
function inCompany(page, act) {
  return using(withServer([page]), (server) => visit(browser, server.of(0), (ada, ben) => act(ada, ben, server), 2));
}

// A step stands on those before it, so the first one that fails ends them all.
async function step(name, act) {
  const begin = performance.now();
  try {
    await act();
  } catch (error) {
    error.message = `${name}: ${error.message}`;
    throw error;
  }
  if (process.env.VERBOSE) console.log(`${(performance.now() - begin).toFixed().padStart(6)} ms  company: ${name}`);
}

async function together(ada, ben, server) {
  let expected = await html(ada);
  for (const [name, act, ...changes] of company.steps) {
    await step(name, async () => {
      for (const [from, to] of changes) {
        assert.equal(expected.split(from).length, 2, `${from} stands once in the page`);
        expected = expected.replace(from, to);
      }
      await act(ada, ben);
      assert.equal(await meet(ada, ben), expected);
    });
  }
  if (picture) {
    await dragOver(ben, "both windows at once");
    await clickAfter(ada, "Undo: it");
    await meet(ada, ben);
    writeFileSync(picture, await browser.together([ada, ben]));
  }
  for (const name of ["selections", "dropped", "away", "race"]) await step(name, () => company[name](ada, ben));
  await step("the log makes the page that both windows hold", async () => {
    const sites = await Promise.all([ada, ben].map((person) => person.value("vemodel.editor.session.site")));
    const page = await meet(ada, ben);
    assert.deepEqual(await http.replayed(server.of(0), program, sites), [page, page]);
  });
  await step("no script of the page ran", async () => {
    for (const person of [ada, ben]) assert.equal(await person.value("typeof hacked"), "undefined");
  });
}

async function checkServer() {
  await using(withServer([sample, "<p>a"]), async (server) => {
    await check("http: windows that open at once", () => http.together(server.of(0)));
    await check("http: lines that a window writes", () => http.writing(server.of(0)));
    await check("http: a page that the core refuses", () => http.refused(server.of(1)));
    for (const { name, act } of http.cases) await check(name, () => act(server.of(0)));
  });
  await check("a page of 1 MB", () => using(withServer([big.page]), async (server) => {
    const { opens, erases } = await big.check(browser, server.of(0));
    console.log(`1 MB: ${opens.toFixed()} ms of work to open, ${erases.toFixed()} ms to erase all`);
  }));
}

async function checkPictures(browser) {
  const gallery = await pictures.gallery();
  for (const words of [[], ["--pictures", gallery.origin]]) {
    const look = (ada) => pictures.check(ada, gallery, words.length > 0);
    const act = () => using(withServer([gallery.page], ...words), (server) => visit(browser, server.of(0), look));
    await check(`pictures: ${words[0] ?? "none allowed"}`, act);
  }
  gallery.close();
}

// Whether the core knows `live` and `exact`.
async function knowsWhole() {
  let isKnown = false;
  const look = async (ada) => (isKnown = await whole.isKnown(ada));
  await onceMore("what the core knows", () => using(withoutServer([whole.page]), (server) => visit(browser, server.of(0), look)));
  if (!isKnown) console.log("skipped: undo in company and what is kept whole, as this core knows neither live nor exact");
  return isKnown;
}

async function checkAhead() {
  const to = mkdtempSync(join(folder, "files-"));
  execFileSync(process.execPath, [here("files.mjs"), to]);
  const module = await compile(readFileSync(join(to, "vemodel/vemodel.wasm")));
  await check("sessions ahead of the log", () => ahead.check(to, World, module));
}

async function checkJoining(browser) {
  const again = (port) => serve(program, "--port", String(port), ...written([joining.page]));
  await check("joining: alone, and later not", async () => {
    const files = await withoutServer([joining.page]);
    const together = await joining.alone(browser, { ...files, url: files.of(0) }, again);
    await joining.apart(together, again);
  });
}

async function checkBeside() {
  await checkSingle("without one", other, withoutServer, false);
  await checkJoining(other);
  await checkPictures(other);
  await checkAhead();
  await other.close();
}

const isWhole = await knowsWhole();
await Promise.all([checkSingle("with a server", browser, withServer, true), checkBeside()]);
await check("company", () => inCompany(sample + SCRIPTS, together));
await checkServer();
for (const [name, act] of isWhole ? whole.company : []) await check(`whole: ${name}`, () => inCompany(whole.page, act));
await browser.close();
rmSync(folder, { recursive: true });
if (!failed) console.log("editor: ok");
process.exit(failed ? 1 : 0); // a check that failed may have left a server
