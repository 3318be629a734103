// What the server answers to those who ask otherwise than its own page.
/* global TextDecoderStream */
import assert from "node:assert/strict";
import http from "node:http";
import { Core } from "../../../clients/node/index.js";

const own = (url) => new URL(url).host;
const evil = { origin: "http://evil.example" };
const BIG = 17 << 20;
const LINES = (lines) => `{"id":"x","from":0,"lines":${lines}}`;

// A request by its method, path, headers and body, and the status that is wanted.
const requests = [
  ["the page", "GET", "/", {}, "", 200],
  ["a module", "GET", "/main.js", {}, "", 200],
  ["a name of JavaScript's own", "GET", "/constructor.js", {}, "", 404],
  ["another of them", "GET", "/__proto__", {}, "", 404],
  ["what stands above", "GET", "/../server.mjs", {}, "", 404],
  ["the same, hidden", "GET", "/..%2fserver.mjs", {}, "", 404],
  ["a page that isn't there", "POST", "/lines?page=__proto__", {}, LINES("[]"), 404],
  ["another host", "GET", "/", { host: "evil.example" }, "", 403],
  ["a host that begins like ours", "GET", "/", { host: "127.0.0.1.evil" }, "", 403],
  ["events from another origin", "GET", "/events", evil, "", 403],
  ["events from another site", "GET", "/events", { "sec-fetch-site": "cross-site" }, "", 403],
  ["lines from another origin", "POST", "/lines", evil, LINES("[]"), 403],
  ["another method", "PUT", "/lines", {}, LINES("[]"), 405],
  ["no JSON", "POST", "/lines", {}, "{", 400],
  ["no lines", "POST", "/lines", {}, LINES("5"), 400],
  ["lines that are no texts", "POST", "/lines", {}, LINES("[5]"), 400],
  ["a window that isn't there", "POST", "/lines", {}, LINES("[]"), 410],
  ["another log, where there is one", "POST", "/log", {}, '{"old":"x","log":"y","lines":["{}"]}', 409],
  ["a body without an end", "POST", "/lines", {}, "x".repeat(BIG), 413],
];

function status(url, method, path, headers, body) {
  return new Promise((tell, fail) => {
    const { hostname, port } = new URL(url);
    const request = http.request({ hostname, port, method, path, headers: { host: own(url), ...headers } }, (answer) => {
      tell(answer.statusCode);
      answer.destroy();
    });
    // a server that has read enough closes the connection, at times before its answer is read
    request.on("error", (error) => (body.length === BIG ? tell(413) : fail(error)));
    request.end(body);
  });
}

export const cases = requests.map(([name, method, path, headers, body, wanted]) => ({
  name: `http: ${name}`,
  act: async (url) => assert.equal(await status(url, method, path, headers, body), wanted),
}));

// A window as the server sees it: what it was told first, all lines of the log, and its connection.
async function windowOf(url) {
  const answer = await fetch(new URL(`/events${new URL(url).search}`, url));
  const reader = answer.body.pipeThrough(new TextDecoderStream()).getReader();
  let text = "", hello, lines = [];
  while (!hello || lines.length < hello.length) {
    text += (await reader.read()).value;
    const told = text.split("\n\n").slice(0, -1).map((event) => JSON.parse(event.split("data: ")[1]));
    [hello] = told;
    lines = told.flatMap((one) => one.lines ?? []);
  }
  return { hello, lines, close: () => reader.cancel() };
}

/** The page that a log makes at each of the sites, by a core that is asked for nothing else. */
export async function replayed(url, program, sites) {
  const { lines, close } = await windowOf(url);
  const core = new Core({ program });
  for (const line of lines) assert.match(await core.line(line), /^ok/, line);
  const pages = await Promise.all(sites.map((site) => core.html({ site })));
  await Promise.all([core.close(), close()]);
  return pages;
}

/** Windows that open at once share one log, and each has a site of its own. */
export async function together(url) {
  const windows = await Promise.all([0, 1, 2].map(() => windowOf(url)));
  assert.deepEqual(windows.map(({ hello }) => hello.site).sort(), [0, 1, 2]);
  assert.equal(new Set(windows.map(({ hello }) => hello.log)).size, 1);
  await Promise.all(windows.map(({ close }) => close()));
}

/** Who comes to a page that the core doesn't open is told what the core says. */
export async function refused(url) {
  const answer = await fetch(new URL(`/events${new URL(url).search}`, url));
  assert.match(await answer.text(), /^event: ended\n.*no html unclosed/);
}

// Lines of a window that are no window's to write.
const lines = (site) => [
  ["another page", { do: "open", page: "x" }, 400],
  ["a line of another's", { do: "type", text: "x", site: (site + 1) % 8 }, 400],
  ["half of a sign", { do: "type", text: "\ud800" }, 409],
  ["what the core refuses", { do: "remove", from: 5, to: 5 }, 409],
  ["a word of JavaScript's own", { do: "constructor" }, 400],
  ["a line of its own", { do: "select", anchor: 1, focus: 1 }, 204],
];

/** What a window may write. */
export async function writing(url) {
  const { hello: { id, site, log }, close } = await windowOf(url);
  for (const [name, command, wanted] of lines(site)) {
    const body = JSON.stringify({ id, log, from: 0, lines: [JSON.stringify({ site, ...command })] });
    const answer = await fetch(new URL("/lines", url), { method: "POST", body });
    assert.equal(answer.status, wanted, name);
  }
  await close();
}
