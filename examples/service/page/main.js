// A window on a page of the service: /window?page=NAME, and &name=WHO where the service asks nobody who they are.
import { World, compile } from "../web/world.js";
import { erased, parted, typed } from "./edits.js";
import { View } from "./view.js";
import { Writer } from "./writer.js";

const find = (selector) => document.querySelector(selector);
const query = new URLSearchParams(location.search);
const page = query.get("page") ?? "";
const host = find("#page");
find("#name").textContent = document.title = page;

const status = (text) => (find("#status").textContent = text);
const module = await compile().catch((error) => status(`No program here: ${error.message}`));

// One key a window: it names the writer to the service for as long as the window is open.
const key = crypto.getRandomValues(new Uint8Array(24)).reduce((text, byte) => text + byte.toString(16).padStart(2, "0"), "");
const name = query.has("name") ? `?name=${encodeURIComponent(query.get("name"))}` : "";
const view = new View(host);
const socket = `${location.origin.replace("http", "ws")}/pages/${encodeURIComponent(page)}/edit${name}`;
const writer = new Writer(socket, key, () => new World(module), {
  changing: look,
  changed() {
    view.draw(writer.items);
    place();
    showCarets();
    host.contentEditable = "true";
  },
  people() {
    find("#people").replaceChildren(...[...writer.people].map(([who, one]) => tag(who, one.name)));
    showCarets();
  },
  notice: status,
});

const color = (who) => `hsl(${(who * 137) % 360} 60% 40%)`;

function tag(who, text) {
  const dom = Object.assign(document.createElement("span"), { textContent: text });
  dom.style.background = color(who);
  return dom;
}

function showCarets() {
  const layer = find("#carets"), corner = layer.getBoundingClientRect();
  layer.replaceChildren(...[...writer.people].flatMap(([who, { name, selection }]) => {
    if (!selection) return [];
    const [from, to] = [Math.min(...selection), Math.max(...selection)];
    const boxes = from < to ? [...view.range(from, to).getClientRects()] : [];
    const focus = view.range(selection[1], selection[1]);
    const at = focus.getClientRects()[0] ?? focus.startContainer.getBoundingClientRect?.();
    return [...boxes.map((box) => mark(who, box, corner)), ...(at ? [mark(who, at, corner, name)] : [])];
  }));
}

function mark(who, box, corner, title = null) {
  const dom = tag(who, "");
  const [left, top, width, height] = [box.left - corner.left, box.top - corner.top, box.width, box.height].map((size) => `${size}px`);
  Object.assign(dom.style, { left, top, width, height });
  if (title !== null) [dom.className, dom.title] = ["focus", title];
  return dom;
}

// Puts the browser's selection where the writer's is.
function place() {
  if (document.activeElement !== host) return;
  const [anchor, focus] = writer.selection.map((at) => view.point(at));
  getSelection().setBaseAndExtent(...anchor, ...focus);
}

// Reads where the user put it. The browser tells some time later: a key, or another's change, may come before.
function look() {
  if (document.activeElement !== host) return;
  const { anchorNode, anchorOffset, focusNode, focusOffset } = getSelection();
  if (!anchorNode || !host.contains(anchorNode)) return;
  const selection = [view.offset(anchorNode, anchorOffset), view.offset(focusNode, focusOffset)];
  if (selection.includes(null) || String(selection) === String(writer.selection)) return;
  writer.select(selection);
}

const inputs = {
  insertText: ({ data }) => writer.act((it) => typed(it, data)),
  insertParagraph: () => writer.act(parted),
  insertFromPaste: ({ dataTransfer }) => {
    const text = dataTransfer.getData("text/plain").replace(/[\0\r]/g, "").replace(/\n+/g, " ");
    if (text) writer.act((it) => typed(it, text));
  },
  deleteContentBackward: () => writer.act((it) => erased(it, "back")),
  deleteContentForward: () => writer.act((it) => erased(it, "ahead")),
  historyUndo: () => writer.undo(),
  historyRedo: () => writer.redo(),
};

document.addEventListener("selectionchange", look);
host.addEventListener("beforeinput", (event) => {
  if (event.isComposing) return;
  event.preventDefault();
  look();
  inputs[event.inputType]?.(event);
});
// An input method writes into the document; what it wrote is taken out again, and typed.
host.addEventListener("compositionend", ({ data }) => {
  view.draw([]);
  view.draw(writer.items);
  place();
  if (data) writer.act((it) => typed(it, data));
});
host.addEventListener("keydown", (event) => {
  const undo = { z: event.shiftKey ? "redo" : "undo", y: "redo" }[event.key.toLowerCase()];
  if ((event.ctrlKey || event.metaKey) && undo) {
    event.preventDefault();
    writer[undo]();
  }
});
addEventListener("resize", showCarets);
addEventListener("beforeunload", (event) => {
  if (writer.unsaid) event.preventDefault();
});

globalThis.vemodel = { writer, view }; // for the console, and for the check
