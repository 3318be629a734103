// Chromium or Firefox without a window, and a page that posts what it found to /told, so that no protocol of a browser is needed.
import { spawn } from "node:child_process";
import { mkdtempSync, rmSync, writeFileSync } from "node:fs";
import { createServer } from "node:http";
import { tmpdir } from "node:os";
import { basename, extname, join } from "node:path";

const PATIENCE = 200_000; // milliseconds
const SCRIPT = "text/javascript";
const TYPES = { ".html": "text/html; charset=utf-8", ".js": SCRIPT, ".mjs": SCRIPT, ".wasm": "application/wasm" };
// A page that is by itself in its process has finer clocks.
const HEADERS = { "cross-origin-opener-policy": "same-origin", "cross-origin-embedder-policy": "require-corp", "cache-control": "no-store" };
// Firefox is to ask nothing of anybody at its start.
const PREFERENCES = {
  "browser.shell.checkDefaultBrowser": false,
  "browser.aboutwelcome.enabled": false,
  "datareporting.policy.dataSubmissionEnabled": false,
  "app.normandy.enabled": false,
  "network.captive-portal-service.enabled": false,
};
const CHROMIUM = ["--headless=new", "--disable-gpu", "--no-first-run", "--disable-extensions", "--disable-background-networking",
  "--disable-dev-shm-usage", "--disable-renderer-backgrounding", "--disable-backgrounding-occluded-windows"];

/**
 * Opens the page at an address in a browser, and returns what it posts. `answered` gives the body of each address, and throws where there
 * is none. `headers` are sent with each, and `flags` are words for Chromium.
 */
export async function told(browser, address, answered, { headers = {}, flags = [] } = {}) {
  const folder = mkdtempSync(join(tmpdir(), "page-"));
  let tell;
  const post = new Promise((done) => (tell = done));
  const server = createServer((request, response) => {
    if (request.method === "POST") return bodyOf(request).then((text) => (response.end(), tell(JSON.parse(text))));
    try {
      const body = answered(request.url), type = TYPES[extname(request.url)] ?? "application/json";
      return response.writeHead(200, { ...HEADERS, ...headers, "content-type": type }).end(body);
    } catch {
      return response.writeHead(404).end();
    }
  });
  await new Promise((ready) => server.listen(0, "127.0.0.1", ready));
  const url = `http://127.0.0.1:${server.address().port}${address}`;
  const env = { ...process.env, HOME: folder };
  const running = spawn(browser, [...words(browser, folder, flags), url], { stdio: "ignore", env });
  const gone = new Promise((end) => running.once("close", end));
  const kill = () => running.kill("SIGKILL");
  process.once("exit", kill);
  let late;
  try {
    return await Promise.race([
      post,
      gone.then((status) => Promise.reject(new Error(`${browser} ended with ${status}`))),
      new Promise((_, fail) => (late = setTimeout(() => fail(new Error(`${browser} tells nothing of ${address}`)), PATIENCE))),
    ]);
  } finally {
    clearTimeout(late);
    running.kill();
    late = setTimeout(kill, 3000);
    await gone.catch(() => {});
    clearTimeout(late);
    process.removeListener("exit", kill);
    server.closeAllConnections();
    server.close();
    rmSync(folder, { recursive: true, force: true, maxRetries: 5 });
  }
}

// The words for a browser whose profile is in a folder of its own.
function words(browser, folder, flags) {
  if (!basename(browser).startsWith("firefox")) {
    return [...CHROMIUM, ...(process.getuid() ? [] : ["--no-sandbox"]), `--user-data-dir=${folder}`, ...flags];
  }
  const lines = Object.entries(PREFERENCES).map(([name, value]) => `user_pref("${name}", ${value});\n`);
  writeFileSync(join(folder, "user.js"), lines.join(""));
  return ["--headless", "--no-remote", "--profile", folder];
}

async function bodyOf(request) {
  const pieces = [];
  for await (const piece of request) pieces.push(piece);
  return Buffer.concat(pieces).toString();
}
