// Headless Chromium by the DevTools protocol: windows, real keys and the mouse. Node's own WebSocket is all that it needs. And the
// server, as the check and the measurements start it.
import { spawn } from "node:child_process";
import { existsSync, mkdtempSync, readFileSync, rmSync } from "node:fs";
import { createServer } from "node:http";
import { tmpdir } from "node:os";
import { extname, join } from "node:path";
import { fileURLToPath } from "node:url";

const PATIENCE = 120_000; // milliseconds; a loaded machine is slow, and one that fails is worth waiting for
const SOON = 3000; // milliseconds, in which the page has seen what it was sent, unless that was lost

// Waits until a condition gives something that holds. Tells what it waited for where it never does.
export async function until(what, condition) {
  const end = Date.now() + PATIENCE;
  for (;;) {
    const got = await condition();
    if (got) return got;
    if (Date.now() > end) throw new Error(`waited in vain until ${what}`);
    await new Promise((next) => setTimeout(next, 10));
  }
}

/** Whether a condition holds soon. Where it doesn't, what should have led to it can be done again. */
export async function holdsSoon(condition) {
  for (const end = Date.now() + SOON; ;) {
    if (await condition()) return true;
    if (Date.now() > end) return false;
    await new Promise((next) => setTimeout(next, 10));
  }
}

/**
 * Does something, and where it fails once more, from its beginning. A browser that is driven from outside stalls or loses an event on a
 * loaded machine, so its drivers try again, as Playwright does by its retries. It is told openly, and what fails twice has failed.
 */
export async function onceMore(what, act) {
  try {
    return await act(0);
  } catch (error) {
    console.log(`once more: ${what}: ${error.message}`);
  }
  return act(1);
}

// What a promise gives, unless it takes too long.
async function soon(what, promise) {
  let late;
  const patience = new Promise((_, fail) => (late = setTimeout(() => fail(new Error(`waited in vain for ${what}`)), PATIENCE)));
  return Promise.race([promise, patience]).finally(() => clearTimeout(late));
}

// The server with these words, which are pages and more, at a port that is free if they name none. It has its first page's address in `url`.
export async function serve(program, ...rest) {
  const words = [fileURLToPath(new URL("server.mjs", import.meta.url)), "--port", "0", "--program", program, ...rest];
  const server = spawn(process.execPath, words, { stdio: ["ignore", "pipe", "inherit"] });
  const url = await soon("the server", new Promise((tell, fail) => {
    server.stdout.setEncoding("utf8").once("data", (said) => tell(said.split("\n")[0]));
    server.once("exit", () => fail(new Error("the server ended")));
  }));
  const ended = new Promise((end) => server.once("exit", end));
  process.once("exit", () => server.kill());
  return { url, close: () => (server.kill(), ended) };
}

function closed(server) {
  const end = new Promise((tell) => server.close(tell));
  server.closeAllConnections();
  return end;
}

const TYPES = { ".html": "text/html", ".js": "text/javascript", ".css": "text/css", ".wasm": "application/wasm" };

// Any web server: the files of a folder, and nothing else.
export async function serveFiles(folder) {
  const server = createServer((request, answer) => {
    const { pathname } = new URL(request.url, "http://localhost");
    const path = join(folder, pathname === "/" ? "index.html" : pathname);
    if (!existsSync(path)) return answer.writeHead(404).end();
    return answer.writeHead(200, { "content-type": TYPES[extname(path)] ?? "text/plain" }).end(readFileSync(path));
  });
  await new Promise((listening) => server.listen(0, "127.0.0.1", listening));
  const { port } = server.address();
  return { port, url: `http://127.0.0.1:${port}/`, close: () => closed(server) };
}

// How often the page has seen events, before it does anything about them, and where the mouse was in the last one.
const SEEN = `(globalThis.seen ??= (() => {
  const seen = { x: 0, y: 0 };
  for (const name of ["mousedown", "mouseup", "mousemove", "dragstart", "dragover", "drop", "dragend", "copy", "cut", "paste",
    "compositionstart", "compositionupdate", "compositionend"]) {
    seen[name] = 0;
    addEventListener(name, ({ clientX, clientY }) => {
      seen[name]++;
      if (clientX !== undefined) Object.assign(seen, { x: clientX, y: clientY });
    }, true);
  }
  return seen;
})())`;
const ALT = 1, CTRL = 2, SHIFT = 8;
const KEYS = { Enter: 13, Backspace: 8, Tab: 9, Escape: 27, End: 35, Home: 36, ArrowLeft: 37, ArrowUp: 38, ArrowRight: 39, ArrowDown: 40,
  Delete: 46 };

export class Browser {
  #process;
  #folder = mkdtempSync(join(tmpdir(), "editor-"));
  #socket;
  #waiting = new Map();
  #next = 0;

  static async start(path) {
    const browser = new Browser();
    await browser.#launch(path);
    return browser;
  }

  async #launch(path) {
    const words = ["--headless=new", "--disable-gpu", "--remote-debugging-port=0", `--user-data-dir=${this.#folder}`, "--no-first-run",
      "--disable-extensions", "--disable-background-networking", "--disable-dev-shm-usage", "--window-size=1000,820",
      "--disable-renderer-backgrounding", "--disable-backgrounding-occluded-windows", ...(process.getuid() ? [] : ["--no-sandbox"]),
      "about:blank"];
    this.#process = spawn(path, words, { stdio: ["ignore", "ignore", "pipe"] });
    process.once("exit", () => this.#process.kill("SIGKILL"));
    const address = await soon("Chromium", new Promise((tell, fail) => {
      let said = "";
      this.#process.stderr.setEncoding("utf8").on("data", (piece) => {
        said += piece;
        const found = /DevTools listening on (\S+)/.exec(said);
        if (found) tell(found[1]);
      });
      this.#process.on("exit", (status) => fail(new Error(`Chromium ended with ${status}: ${said.slice(-500)}`)));
    }));
    this.#socket = new WebSocket(address);
    this.#socket.onmessage = ({ data }) => {
      const { id, result, error } = JSON.parse(data);
      const waiting = this.#waiting.get(id);
      this.#waiting.delete(id);
      if (error) waiting?.fail(new Error(error.message));
      else waiting?.tell(result);
    };
    await new Promise((open) => (this.#socket.onopen = open));
    await this.call("Browser.grantPermissions", { permissions: ["clipboardReadWrite", "clipboardSanitizedWrite"] });
  }

  call(method, params = {}, sessionId = undefined) {
    const id = ++this.#next;
    this.#socket.send(JSON.stringify({ id, method, params, sessionId }));
    return soon(`an answer to ${method} ${params.expression ?? ""}`, new Promise((tell, fail) => this.#waiting.set(id, { tell, fail })));
  }

  async open(url) {
    const { targetId } = await this.call("Target.createTarget", { url, newWindow: true });
    const { sessionId } = await this.call("Target.attachToTarget", { targetId, flatten: true });
    // each window believes that it is in front, so that both have a caret and draw at once
    await this.call("Emulation.setFocusEmulationEnabled", { enabled: true }, sessionId);
    return new Window(this, sessionId);
  }

  // A window of the editor, once it is ready.
  async edit(url) {
    const window = await this.open(url);
    await window.ready();
    return window;
  }

  // Pictures of windows, side by side as one.
  async together(windows) {
    const pictures = await Promise.all(windows.map((window) => window.picture()));
    const sheet = await this.open("about:blank");
    const width = 1600, height = 595;
    await sheet.call("Emulation.setDeviceMetricsOverride", { width, height, deviceScaleFactor: 1, mobile: false });
    const each = width / windows.length - 15;
    const images = pictures.map((png) => `<img width="${each}" src="data:image/png;base64,${png.toString("base64")}">`);
    await sheet.value(`document.body.style = "margin:10px;display:flex;gap:10px;align-items:flex-start;background:#cbd2dc";
      document.body.innerHTML = ${JSON.stringify(images.join(""))};
      Promise.all([...document.images].map((image) => image.decode())).then(() => true)`);
    return sheet.picture();
  }

  async close() {
    const gone = new Promise((end) => this.#process.on("close", end));
    this.#process.removeAllListeners("exit");
    this.call("Browser.close").catch(() => {});
    const late = setTimeout(() => this.#process.kill("SIGKILL"), 3000);
    await gone;
    clearTimeout(late);
    this.#socket.close();
    rmSync(this.#folder, { recursive: true, force: true, maxRetries: 5 });
  }
}

class Window {
  #browser;
  #session;

  constructor(browser, session) {
    this.#browser = browser;
    this.#session = session;
  }

  call(method, params) {
    return this.#browser.call(method, params, this.#session);
  }

  async value(expression) {
    const { result, exceptionDetails } = await this.call("Runtime.evaluate", { expression, awaitPromise: true, returnByValue: true });
    if (exceptionDetails) throw new Error(exceptionDetails.exception?.description ?? exceptionDetails.text);
    return result.value;
  }

  // A window that goes to another page may answer nothing meanwhile.
  async ready() {
    await until("the editor is ready", () => this.value("document.documentElement?.dataset.ready").catch(() => false));
    await this.drawn();
  }

  /** The page is on the screen: what it is sent before may be lost. */
  drawn() {
    const isDrawn = "performance.getEntriesByName('first-contentful-paint').length > 0";
    return until("the page is drawn", () => this.value(isDrawn).catch(() => false));
  }

  async go(url) {
    await this.call("Page.navigate", { url });
    await this.ready();
  }

  async reload() {
    await this.value("delete document.documentElement.dataset.ready; location.reload()");
    await this.ready();
  }

  // A key by its name, with what is held down: "Enter", "ctrl+b", "shift+ArrowLeft". The protocol wants to be told what a key of the
  // browser's own does, as copy or selectAll.
  async key(name, command = undefined) {
    const held = name.split("+").slice(0, -1), key = name.split("+").at(-1);
    const modifiers = (held.includes("alt") ? ALT : 0) | (held.includes("ctrl") ? CTRL : 0) | (held.includes("shift") ? SHIFT : 0);
    const code = key.length === 1 ? `Key${key.toUpperCase()}` : key;
    const windowsVirtualKeyCode = KEYS[key] ?? key.toUpperCase().charCodeAt(0);
    const commands = command && [command];
    await this.#press({ key, code, windowsVirtualKeyCode, modifiers, text: key === "Enter" ? "\r" : undefined, commands });
  }

  // Events are sent ahead; the browser takes them in their order.
  #press(key) {
    return Promise.all([
      this.call("Input.dispatchKeyEvent", { type: key.text ? "keyDown" : "rawKeyDown", ...key }),
      this.call("Input.dispatchKeyEvent", { type: "keyUp", ...key, text: undefined, commands: undefined }),
    ]);
  }

  type(text) {
    return Promise.all([...text].map((char) => {
      const windowsVirtualKeyCode = /[a-z0-9 ]/i.test(char) ? char.toUpperCase().charCodeAt(0) : 0;
      return this.#press({ key: char, text: char, windowsVirtualKeyCode });
    }));
  }

  // An input method that composes these texts in turn, and chooses the last one. `over` is how many letters before the caret it takes over.
  async compose(texts, over = 0) {
    const caret = await this.value("getSelection().focusOffset");
    const place = over ? { replacementStart: caret - over, replacementEnd: caret } : {};
    const before = await this.seen();
    for (const text of texts) {
      await this.call("Input.imeSetComposition", { text, selectionStart: text.length, selectionEnd: text.length, ...place });
    }
    await until("an input method writes", async () => (await this.seen()).compositionstart > before.compositionstart);
    await this.call("Input.insertText", { text: texts.at(-1) });
    await until("an input method is done", async () => (await this.seen()).compositionend > before.compositionend);
  }

  /** An event of the mouse, with the left button pressed. */
  mouse(type, at, clickCount = 1) {
    const [x, y] = (this.at = at);
    return this.call("Input.dispatchMouseEvent", { type, x, y, button: "left", buttons: 1, clickCount });
  }

  /** How often the page has seen each event. */
  seen() {
    return this.value(SEEN);
  }

  /** Acts until the page has seen so many more events of this name: a page that isn't on the screen yet loses what it is sent. */
  async untilSeen(name, act, times = 1) {
    await until(`the page sees ${name}`, async () => {
      const before = (await this.seen())[name];
      await act();
      return holdsSoon(async () => (await this.seen())[name] >= before + times);
    });
  }

  // So many clicks at one place.
  click(at, times = 1) {
    return this.untilSeen("mouseup", async () => {
      for (let count = 1; count <= times; count++) {
        await Promise.all([this.mouse("mousePressed", at, count), this.mouse("mouseReleased", at, count)]);
      }
    }, times);
  }

  move(to) {
    return this.call("Input.dispatchMouseEvent", { type: "mouseMoved", x: to[0], y: to[1], button: "none", buttons: 0 });
  }

  // From one place to another with the button held down, where a selection grows.
  sweep(from, to) {
    return this.untilSeen("mousedown", async () => {
      await this.mouse("mousePressed", from);
      await this.mouse("mouseMoved", to);
      await this.mouse("mouseReleased", to);
    });
  }

  // Cuts the network off, or joins it again.
  async offline(is) {
    await this.call("Network.enable");
    await this.call("Network.emulateNetworkConditions", { offline: is, latency: 0, downloadThroughput: -1, uploadThroughput: -1 });
    const isOff = () => this.value("fetch('.', { method: 'POST' }).then(() => false, () => true)");
    await until(`the network is ${is ? "off" : "on"}`, async () => (await isOff()) === is);
  }

  close() {
    return this.call("Page.close");
  }

  async picture() {
    return Buffer.from((await this.call("Page.captureScreenshot", { format: "png" })).data, "base64");
  }
}
