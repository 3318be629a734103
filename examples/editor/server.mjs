// node server.mjs [--port N] [--program PATH] [--module PATH] [--pictures ORIGIN]... [PAGE...]: serves the editor, and the log of each page.
import { readFileSync } from "node:fs";
import { readFile } from "node:fs/promises";
import { createServer } from "node:http";
import { basename, extname } from "node:path";
import { parseArgs } from "node:util";
import { Core } from "../../clients/node/index.js";
import { filesOf, here, moduleOf } from "./files.mjs";
import { Rejected } from "./rejected.mjs";
import { Room } from "./room.mjs";

const { values, positionals } = parseArgs({
  allowPositionals: true,
  options: {
    port: { type: "string", default: "8360" },
    program: { type: "string", default: process.env.VEMODEL },
    module: { type: "string" },
    pictures: { type: "string", multiple: true, default: [] },
  },
});
const MOST = 16 << 20; // bytes of a request
const HOST = /^(127\.0\.0\.1|localhost)(:\d+)?$/;
const TYPES = { ".html": "text/html; charset=utf-8", ".css": "text/css", ".js": "text/javascript", ".wasm": "application/wasm" };
// Pages may hold scripts. None is ever put into the document, and the browser is told to run only ours. It loads pictures of our own
// server, and of those that the page's owner names: a picture tells its server who reads the page.
const POLICY = "default-src 'none'; script-src 'self' 'wasm-unsafe-eval'; style-src 'self'; connect-src 'self'; worker-src 'self'; " +
  `base-uri 'none'; form-action 'none'; img-src 'self' data: ${values.pictures.map((origin) => new URL(origin).origin).join(" ")}`;

const pages = new Map((positionals.length ? positionals : [here("sample.html")]).map((path) => [basename(path), path]));
const rooms = new Map(); // promises: windows that come at once meet in one room
const files = filesOf(values.module);

// The room of a page, which begins with its first window.
function room(name) {
  if (!pages.has(name)) throw new Rejected(404, `there is no page ${name}`);
  if (!rooms.has(name)) rooms.set(name, readFile(pages.get(name), "utf8").then((page) => new Room(() => coreOf(name), page)));
  return rooms.get(name);
}

// The module that the pages have, or a program of the same sources. Where a core ends, the room goes with it; a window that comes again
// brings its log.
function coreOf(name) {
  const core = new Core(values.program ? { program: values.program } : { module: moduleOf(values.module) });
  core.ended.then((why) => {
    if (why.status === 0) return;
    console.error(`${name}: ${why.message}`);
    rooms.get(name)?.then((ended) => ended.close());
    rooms.delete(name);
  });
  return core;
}

function file(answer, path) {
  answer.writeHead(200, { "content-type": TYPES[extname(path)], "content-security-policy": POLICY, "cache-control": "no-cache" });
  answer.end(readFileSync(path));
}

// What a window is told, as server-sent events, for as long as it is open.
async function events(answer, name, query) {
  const joined = await room(name);
  const wire = {
    send: (event, data) => answer.write(`event: ${event}\ndata: ${JSON.stringify(data)}\n\n`),
    close: () => answer.end(),
  };
  answer.writeHead(200, { "content-type": "text/event-stream", "cache-control": "no-cache" });
  const number = (word) => (query.has(word) ? Number(query.get(word)) : undefined);
  const { id, log } = Object.fromEntries(query);
  try {
    const is = await joined.join(wire, { id, log, site: number("site"), length: number("length"), sum: number("sum") });
    if (answer.closed) joined.leave(is, wire);
    else answer.on("close", () => joined.leave(is, wire));
  } catch (error) {
    wire.send("ended", { why: error.message });
    wire.close();
  }
}

async function bodyOf(request) {
  const pieces = [];
  let size = 0;
  for await (const piece of request) {
    size += piece.length;
    if (size > MOST) throw new Rejected(413, `a request has at most ${MOST} bytes`);
    pieces.push(piece);
  }
  try {
    return JSON.parse(Buffer.concat(pieces).toString()) ?? {};
  } catch {
    throw new Rejected(400, "this is no JSON");
  }
}

const areLines = (lines) => Array.isArray(lines) && lines.every((line) => typeof line === "string");

const asked = {
  "/lines": (joined, { id, from, lines, presence }) => {
    if (!areLines(lines) || !Number.isInteger(from)) throw new Rejected(400, "lines come with the number of the first");
    return joined.write(id, from, lines, presence);
  },
  "/log": (joined, { old, log, lines }) => {
    if (!areLines(lines) || typeof log !== "string") throw new Rejected(400, "a log has a name and lines");
    return joined.seed(old, log, lines);
  },
};

async function ask(request, answer, name, what) {
  const joined = await room(name);
  await asked[what](joined, await bodyOf(request));
  answer.writeHead(204).end();
}

// A page of another origin may not speak for the user.
function checkOrigin({ host, origin, "sec-fetch-site": site }) {
  const ours = origin === undefined || origin === `http://${host}`;
  if (!ours || (site && !["same-origin", "none"].includes(site))) throw new Rejected(403, "another origin's pages may not ask");
}

async function serve(request, answer) {
  const { pathname, searchParams } = new URL(request.url, "http://localhost");
  const name = searchParams.get("page") ?? pages.keys().next().value;
  const asks = Object.hasOwn(asked, pathname);
  // a page of another origin may have been given our address by its name server
  if (!HOST.test(request.headers.host ?? "")) throw new Rejected(403, "this host isn't ours");
  if (pathname === "/events" || asks) checkOrigin(request.headers);
  if (asks && request.method === "POST") return ask(request, answer, name, pathname);
  if (request.method !== "GET") throw new Rejected(405, "only GET is answered here");
  if (pathname === "/events") return events(answer, name, searchParams);
  if (files.has(pathname)) return file(answer, files.get(pathname));
  throw new Rejected(404, "there is nothing here");
}

const server = createServer((request, answer) => serve(request, answer).catch((error) => {
  const status = error.status ?? (error instanceof RangeError ? 400 : 500);
  if (!answer.headersSent) answer.writeHead(status, { "content-type": "text/plain", connection: "close" });
  answer.end(error.message);
  if (status === 413) request.destroy();
}));
server.listen(Number(values.port), "127.0.0.1", () => {
  for (const name of pages.keys()) console.log(`http://127.0.0.1:${server.address().port}/?page=${encodeURIComponent(name)}`);
});
