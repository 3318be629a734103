// A script is run from its first line whenever it changes, in a world of its own, so that what is shown is what its lines give.
// tools/play puts the client's files before this, in the place of the import.
import { World } from "../../../clients/web/world.js";

const PAUSE = 150; // milliseconds that must go by without a key before the script is run
const SITES = 8;
const find = (id) => document.getElementById(id);
const scripts = JSON.parse(find("scripts").textContent);
const module = await compiled(find("module").textContent);

async function compiled(text) {
  const packed = Uint8Array.from(atob(text), (sign) => sign.charCodeAt(0));
  const unpacked = new Response(packed).body.pipeThrough(new globalThis.DecompressionStream("gzip"));
  return WebAssembly.compile(await new Response(unpacked).arrayBuffer());
}

// The replies to a script's lines, and then the page of each site.
function answers(script) {
  const lines = script.split("\n");
  if (lines.at(-1) === "") lines.pop();
  const world = new World(module);
  const began = performance.now();
  const replies = lines.map((line) => answered(world, line));
  const took = performance.now() - began;
  const pages = [];
  for (let site = 0; site < SITES; site++) {
    const reply = answered(world, JSON.stringify({ do: "html", site }));
    if (!reply.startsWith("ok ")) break;
    pages.push(JSON.parse(reply.slice(3)));
  }
  world.close();
  return { replies, pages, took };
}

function answered(world, line) {
  try {
    return world.line(line);
  } catch (error) {
    return String(error);
  }
}

function show({ replies, pages, took }) {
  find("replies").replaceChildren(...replies.map((reply) => made("li", { textContent: reply, className: reply.startsWith("ok") ? "" : "no" })));
  find("pages").replaceChildren(...pages.flatMap((page, site) => pageOf(page, pages.length > 1 ? `Page of site ${site}` : "Page")));
  find("status").value = `${replies.length} lines in ${took.toFixed(1)} ms`;
}

// A page is drawn in a frame in which nothing runs and nothing is loaded; the policy above goes for it too.
function pageOf(page, title) {
  const frame = made("iframe", { srcdoc: page, title });
  frame.setAttribute("sandbox", "");
  return [made("h2", { textContent: title }), frame, made("pre", { textContent: page })];
}

function made(tag, members) {
  return Object.assign(document.createElement(tag), members);
}

function run() {
  show(answers(find("script").value));
}

// The link holds the script, and nothing is sent anywhere: what stands behind `#` stays in the browser.
function keep() {
  history.replaceState(null, "", `#${encodeURIComponent(find("script").value)}`);
}

function open(script) {
  find("script").value = script;
  run();
}

function fromLink() {
  const script = scriptOf(location.hash.slice(1));
  find("picks").value = scripts.findIndex((it) => it.script === script);
  open(script);
}

// A link that was cut is shown as it is.
function scriptOf(link) {
  try {
    return decodeURIComponent(link);
  } catch {
    return link;
  }
}

for (const group of new Set(scripts.map((it) => it.group))) {
  const options = scripts.flatMap((it, index) => (it.group === group ? [made("option", { value: index, textContent: it.name })] : []));
  const shown = made("optgroup", { label: group });
  shown.append(...options);
  find("picks").append(shown);
}
find("picks").addEventListener("change", () => {
  open(scripts[find("picks").value].script);
  keep();
});
let pause;
find("script").addEventListener("input", () => {
  clearTimeout(pause);
  pause = setTimeout(() => (run(), keep()), PAUSE);
});
find("copy").addEventListener("click", async () => {
  keep();
  await navigator.clipboard?.writeText(location.href);
  find("status").value = "the address holds the script";
});
addEventListener("hashchange", fromLink);
if (location.hash.length > 1) fromLink();
else open(scripts[0].script);
document.documentElement.dataset.ready = "yes";
