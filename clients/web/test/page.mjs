// The client in a page of a browser, under the policy that README names: the tests' cases, and all scripts of examples/, by its methods.
// Those of folders that are given are asked as raw lines.
// usage: node clients/web/test/page.mjs MODULE BROWSER [FOLDER..]
import assert from "node:assert/strict";
import { readFileSync } from "node:fs";
import { basename } from "node:path";
import { told } from "./browsers.mjs";
import { EXAMPLES, scripts } from "./files.mjs";

const [modulePath, browser, ...folders] = process.argv.slice(2);
const WEB = new URL("..", import.meta.url);
const POLICY = "default-src 'none'; script-src 'self' 'wasm-unsafe-eval'; worker-src 'self'; connect-src 'self'";

// The files of clients/web, the module beside them, and the scripts, a character of Latin-1 for each byte.
function answered(address) {
  if (address === "/vemodel.wasm") return readFileSync(modulePath);
  if (address === "/bare/worker.js") throw new Error("it is left behind");
  if (address !== "/scripts") return readFileSync(new URL(`.${address.replace("/bare/", "/")}`, WEB));
  return JSON.stringify([EXAMPLES, ...folders].flatMap((folder) => scripts(folder).map((script) => spelled(script, folder === EXAMPLES))));
}

function spelled({ name, lines, replies }, isOurs) {
  const text = (bytes) => bytes.toString("latin1");
  return { name, isOurs, lines: lines.map(text), replies: replies.map(text) };
}

const { found, count, lineCount } = await told(browser, "/test/page.html", answered, { headers: { "content-security-policy": POLICY } });
assert.deepEqual(found, []);
console.log(`${basename(browser)}: the cases, and ${count} scripts of ${lineCount} lines, in a worker and in the page: ok`);
