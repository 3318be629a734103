// What `revoke` with `live` and `apply` with `exact` are for: undo in company, and what is kept whole cut, pasted and moved.
import assert from "node:assert/strict";
import { meet } from "../person.mjs";
import { casesOf, run } from "./steps.mjs";

/** Whether the page's core knows both: one that doesn't ignores `exact`, and so accepts an origin that nothing has. */
export const isKnown = (person) => person.value(`(async () => {
  const { World, compile } = await import("./vemodel/world.js");
  const world = new World(await compile());
  world.line(JSON.stringify({ do: "open", page: "<p>a</p>" }));
  const ops = [{ remove: 0, insert: [{ open: "p", origin: 9 }, { close: "p" }] }, { retain: 5 }];
  return world.line(JSON.stringify({ do: "apply", exact: true, ops })) === "no bad_origin 9";
})()`);

// Spelled as the core never would by itself, so that bytes which stay are seen.
const TEMPLATE = `<span about='#mwt1' typeof="mw:Transclusion" data-mw='{"parts":[{"template":{"target":{"wt":"cite"}}}]}'>CITED</span>`;
const REF = `<sup typeof='mw:Extension/ref' data-mw='{"name":"ref","attrs":{},"body":{"html":"note"}}'></sup>`;
const IMAGE = "<img src='data:image/gif;base64,R0lGODlhAQABAIAAAP///wAAACwAAAAAAQABAAACAkQBADs=' width='40' height='40'>";
const FIGURE = "<figure typeof='mw:File/Thumb'><a href='./File:Cat.jpg'><img resource='./File:Cat.jpg' src='cat.jpg'></a>" +
  "<figcaption>A cat</figcaption></figure>";

const carried = (selector) => [["on", selector], ["cut"], ["click", "end"], ["back"]];

const carrying = [
  ["a template", `<p>a ${TEMPLATE} b</p><p>end</p>`, carried("#page .leaf"), `<p>a  b</p><p>end${TEMPLATE}</p>`],
  ["a reference", `<p>a${REF} b</p><p>end</p>`, carried("#page .ref"), `<p>a b</p><p>end${REF}</p>`],
  ["a picture", `<p>a${IMAGE} b</p><p>end</p>`, carried("#page img"), `<p>a b</p><p>end${IMAGE}</p>`],
  ["a block that is kept whole", `<p>a</p>${FIGURE}<p>end</p>`, carried("#page .leaf"), `<p>a</p><p>end</p>${FIGURE}`],
  ["text with a template, over another text", `<p>a <b>x${TEMPLATE}</b> b</p><p>end</p>`,
    [["click", "a "], ["keys", "shift+ArrowRight", "shift+ArrowRight", "shift+ArrowRight"], ["cut"], ["over", "end"], ["back"]],
    `<p>a b</p><p><b>x${TEMPLATE}</b> </p>`],
  ["two paragraphs joined over a template", `<p>ab</p><p>c ${TEMPLATE}</p>`,
    [["click", "a"], ["keys", "shift+End", "shift+ArrowRight", "shift+ArrowRight", "Backspace"]], `<p>a ${TEMPLATE}</p>`],
];

const moving = [
  ["a block by its handle", "<h2 class='x'>one</h2><p id='y'>two</p><p>three</p>", [["block", "one", "two"]],
    "<p id='y'>two</p><h2 class='x'>one</h2><p>three</p>"],
  ["an item by its handle", "<ul class='x'><li id='a'>one</li><li>two</li></ul>", [["block", "one", "two"]],
    `<ul class="x"><li>two</li><li id='a'>one</li></ul>`],
  ["a block by its handle, and undo by a key", "<p>one</p><p id='y'>two</p><p>three</p>",
    [["block", "one", "two"], ["keys", "ctrl+z"]], "<p>one</p><p id='y'>two</p><p>three</p>"],
  ["a block by a key", "<h2 class='x'>one</h2><p id='y'>two</p>", [["click", "two"], ["keys", "alt+ArrowUp"], ["type", "!"]],
    `<p id="y">two!</p><h2 class='x'>one</h2>`],
];

const kind = (word) => ["choose", "Kind of paragraph", word];
const undo = [
  ["bold, then italic, over the same words", "<p>one 'two' three</p>",
    [["over", "two"], ["keys", "ctrl+b"], ["keys", "ctrl+i"], ["keys", "ctrl+z", "ctrl+z"]], "<p>one 'two' three</p>"],
  ["headings, and again", "<p id='x'>one</p>",
    [["click", "one"], kind("h2"), kind("h3"), ["keys", "ctrl+z", "ctrl+z", "ctrl+y", "ctrl+y"]], '<h3 id="x">one</h3>'],
  ["what was typed and erased", "<ul><li id='x'>two</li></ul>",
    [["click", "two"], ["type", "abc"], ["keys", "Backspace", "ctrl+z", "ctrl+z"]], "<ul><li id='x'>two</li></ul>"],
  ["a paragraph parted and joined", "<p id='x'>onetwo</p>",
    [["click", "one"], ["keys", "Enter"], ["keys", "Backspace"], ["keys", "ctrl+z", "ctrl+z"]], "<p id='x'>onetwo</p>"],
];

export const cases = casesOf({ carrying, moving, undo });

export const page = `<h2 class='x'>On cats</h2><p>They sit ${TEMPLATE} and look.</p><ul><li>one</li><li>two</li></ul><p>Here Ben types: </p>`;

// Ten changes of one window, each of another kind, which stand on one another.
const changes = [
  [["click", "On cats"], ["type", " and dogs"]],
  [["over", "cats"], ["keys", "ctrl+b"]],
  [["over", "cats"], ["keys", "ctrl+i"]],
  [["click", "dogs"], kind("h3")],
  [["click", "They"], ["keys", "Enter"]],
  [["on", "#page .leaf"], ["keys", "Delete"]],
  [["click", "two"], ["keys", "Tab"]],
  [["click", "one"], ["press", "ol"]],
  [["click", "On "], ["keys", "Backspace"]],
  [["click", "They"], ["press", "table"]],
];

/** Ten mixed changes of one window are undone and made again, while another types: both pages come back byte for byte. */
async function tenChanges(ada, ben) {
  await run(ben, [["click", "Ben types:"]]);
  const shared = async () => (await meet(ada, ben)).replace(/Ben types:x*/, "Ben types:");
  const together = async (steps) => {
    await Promise.all([run(ada, steps), ben.type("x")]);
    return shared();
  };
  const states = [await shared()];
  for (const steps of changes) states.push(await together(steps));
  assert.equal(new Set(states).size, changes.length + 1, "each change changes the page");
  for (const state of states.slice(0, -1).reverse()) assert.equal(await together([["keys", "ctrl+z"]]), state);
  for (const state of states.slice(1)) assert.equal(await together([["keys", "ctrl+y"]]), state);
}

/** A change is taken back under another's that was itself taken back. */
async function under(ada, ben) {
  const before = await meet(ada, ben);
  for (const [person, steps] of [
    [ada, [["over", "look"], ["keys", "ctrl+b"]]],
    [ben, [["over", "look"], ["keys", "ctrl+i"]]],
    [ben, [["keys", "ctrl+z"]]],
    [ada, [["keys", "ctrl+z"]]],
  ]) {
    await run(person, steps);
    await meet(ada, ben);
  }
  assert.equal(await meet(ada, ben), before);
}

export const company = [["ten changes undone and made again", tenChanges], ["under what was taken back", under]];
