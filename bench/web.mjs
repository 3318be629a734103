// Called by bench/web, which says what it measures: node --expose-gc bench/web.mjs MODULE PEERS [BROWSER..]
import { execFileSync } from "node:child_process";
import { existsSync, readFileSync } from "node:fs";
import { basename, join, resolve } from "node:path";
import { constants, brotliCompressSync, gzipSync } from "node:zlib";
import { told } from "../clients/web/test/browsers.mjs";
import { compile } from "../clients/web/world.js";
import { both } from "./letters.mjs";

const [modulePath, folder, ...browsers] = process.argv.slice(2);
const TOP = new URL("..", import.meta.url);
const STARTS = 5, FEW = 200, MANY = 20_000;
const FLAGS = ["--js-flags=--expose-gc", "--enable-precise-memory-info"];
const peers = ["yjs", "prosemirror"].filter((name) => existsSync(pathOf(name)));

function pathOf(peer) {
  return resolve(join(folder, `${peer}.mjs`));
}

// In a page. Its starts are those of frames in it.
const PAGES = {
  "/start.html": `<script type="module">
    import { firstReply } from "/bench/letters.mjs";
    parent.postMessage(await firstReply("/vemodel.wasm"));
  </script>`,
  "/page.html": `<!doctype html><meta charset="utf-8"><script type="module">
    import { compile } from "/clients/web/world.js";
    import { both } from "/bench/letters.mjs";
    async function all() {
      const starts = [];
      for (let start = 0; start < ${STARTS}; start++) {
        const frame = document.createElement("iframe");
        frame.src = "/start.html";
        starts.push(await new Promise((tell) => (onmessage = ({ data }) => tell(data), document.body.append(frame))));
        frame.remove();
      }
      const given = { vemodel: await compile("/vemodel.wasm") };
      for (const name of ${JSON.stringify(peers)}) given[name] = await import("/peers/" + name + ".mjs");
      return { starts, ...(await both(given, ${FEW}, ${MANY})) };
    }
    const found = await all().catch((error) => ({ error: error + error.stack }));
    await fetch("/told", { method: "POST", body: JSON.stringify(found) });
  </script>`,
};

function answered(address) {
  if (address in PAGES) return PAGES[address];
  if (address === "/vemodel.wasm") return readFileSync(modulePath);
  if (address.startsWith("/peers/")) return readFileSync(pathOf(basename(address, ".mjs")));
  return readFileSync(new URL(`.${address}`, TOP));
}

async function inNode() {
  const code = `import { readFileSync } from "node:fs";
    import { firstReply } from ${JSON.stringify(new URL("bench/letters.mjs", TOP))};
    console.log(await firstReply(readFileSync(process.argv[1])));`;
  const start = () => Number(execFileSync(process.execPath, ["--input-type=module", "-e", code, modulePath]));
  const starts = Array.from({ length: STARTS }, start);
  const given = { vemodel: await compile(readFileSync(modulePath)) };
  for (const name of peers) given[name] = await import(pathOf(name));
  return { starts, ...(await both(given, FEW, MANY)) };
}

function showBytes(path) {
  const bytes = readFileSync(path), { BROTLI_PARAM_QUALITY: quality, BROTLI_PARAM_LGWIN: window } = constants;
  const gzip = gzipSync(bytes, { level: 9 }).length;
  const brotli = brotliCompressSync(bytes, { params: { [quality]: 11, [window]: 24 } }).length;
  const of = (size) => `${size.toLocaleString("en")} (${(size / bytes.length).toFixed(2)} of it)`;
  console.log(`${basename(path)}: ${bytes.length.toLocaleString("en")} bytes, gzip -9 ${of(gzip)}, brotli -11 ${of(brotli)}`);
}

function show(engine, { starts, few, many, error }) {
  if (error) throw new Error(error);
  const [least, most] = [Math.min(...starts), Math.max(...starts)].map((it) => it.toFixed(0));
  console.log(`${engine}: first reply ${least} ms after the start (${STARTS} starts, up to ${most})`);
  for (const name in few) {
    const { letter, early, opens, size } = many[name];
    const times = [letter / few[name].letter, letter / many.vemodel.letter].map((it) => it.toFixed(2));
    const cells = [few[name].letter.toFixed(1), letter.toFixed(1), ...times, early.toFixed(0), opens.toFixed(0), size ? (size / 1e6).toFixed(0) : "-"];
    console.log(`  ${name.padEnd(12)}${cells.map((it) => it.padStart(9)).join("")}`);
  }
}

for (const path of [modulePath, ...peers.map(pathOf)]) showBytes(path);
console.log(`Below: µs a letter at ${FEW} and at ${MANY} paragraphs, growth, times vemodel's; then at ${MANY}: µs a letter of the first 100,
ms to open, MB.`);
show("node", await inNode());
for (const browser of browsers) show(basename(browser), await told(browser, "/page.html", answered, { flags: FLAGS }));
