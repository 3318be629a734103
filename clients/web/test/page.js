// What page.mjs has a page do: the cases and scripts of the tests, over a worker and in the page itself. It posts what was otherwise than
// it has to be, and how many scripts and lines were compared.
import { Core, World, compile } from "../index.js";
import { CASES, faults, faultsOfScript } from "./cases.js";

async function tested() {
  const scripts = (await (await fetch("/scripts")).json()).map(read);
  const module = await compile();
  const found = scripts.flatMap((script) => faultsOfBytes(new World(module), script));
  for (const worker of [true, false]) {
    for (const [what, steps] of Object.entries(CASES)) {
      const core = await Core.start({ module, worker });
      found.push(...(await faults(core, steps)).map((fault) => `${what}: ${fault}`));
      await core.close();
    }
    for (const script of scripts) {
      const core = new Core({ module, worker });
      found.push(...(await (script.isOurs ? faultsOfScript : faultsOfLines)(core, rowsOf(script))));
      await core.close();
    }
    found.push(...(await endings(worker)));
  }
  const { Core: Bare } = await import("/bare/index.js");
  const why = await Bare.start().catch((error) => error.message);
  if (!String(why).startsWith("worker.js")) found.push(`without worker.js: ${why}`);
  return { found, count: scripts.length, lineCount: scripts.flatMap(({ replies }) => replies).length };
}

// A script whose lines and replies are bytes.
function read({ lines, replies, ...rest }) {
  const bytes = (text) => Uint8Array.from(text, (char) => char.charCodeAt(0));
  return { ...rest, lines: lines.map(bytes), replies: replies.map(bytes) };
}

// The first line that isn't answered byte for byte.
function faultsOfBytes(world, { name, lines, replies }) {
  const isSame = (one, other) => one.length === other.length && one.every((byte, at) => byte === other[at]);
  const at = replies.findIndex((reply, index) => !isSame(world.bytes(lines[index]), reply));
  return at < 0 ? [] : [`${name}:${at + 1} is answered otherwise`];
}

// What is otherwise of the raw lines of a script, sent ahead.
async function faultsOfLines(core, rows) {
  const got = await Promise.all(rows.map(([line]) => core.line(line)));
  return rows.filter(([, reply], at) => reply !== got[at]).map(([line]) => `${line} is answered otherwise`);
}

// The lines of a script as texts, each with its reply. Where one isn't UTF-8 there are none.
function rowsOf({ lines, replies }) {
  const decoder = new TextDecoder("utf-8", { fatal: true, ignoreBOM: true });
  try {
    return replies.map((reply, at) => [decoder.decode(lines[at]), decoder.decode(reply)]);
  } catch {
    return [];
  }
}

// How a core ends, and what is said of it.
async function endings(worker) {
  const said = [];
  const core = new Core({ worker });
  const replies = Promise.all([core.open({ page: "<p>ab</p>" }), core.html()]);
  said.push(await core.close(), ...(await replies), await core.html().catch((error) => error.status));
  said.push(await Core.start({ worker, module: "/nothing.wasm" }).catch((error) => error.message.replace(/http\S+/, "URL")));
  said.push(await Core.start({ worker, module: new Uint8Array(4) }).catch((error) => error instanceof Error));
  const aborted = new Core({ worker });
  const late = aborted.open({ page: `<p>${"x".repeat(3_000_000)}</p>` }, { signal: AbortSignal.timeout(1) });
  said.push(await late.catch((error) => error.name), await aborted.html().catch((error) => error.status));
  const wanted = [0, 6, "<p>ab</p>", 0, "URL is answered 404: give the module's address", true, "TimeoutError", "aborted"];
  return JSON.stringify(said) === JSON.stringify(wanted) ? [] : [`endings, worker ${worker}: ${JSON.stringify(said)}`];
}

const failed = (error) => ({ found: [`${error}\n${error.stack}`] });
await fetch("/told", { method: "POST", body: JSON.stringify(await tested().catch(failed)) });
