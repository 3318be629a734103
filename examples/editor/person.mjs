// What a person does in a window of the editor, for the check.
import assert from "node:assert/strict";
import { holdsSoon, until } from "./browser.mjs";

/** The page that the window's site holds. */
export const html = async (person) => JSON.parse((await person.value("vemodel.editor.session.read({ do: 'html' })")).slice(3));

const isShared = (person) => person.value("vemodel.editor.session.ahead.lines.length === 0");

/** The server has all that was done. */
export const shared = (person) => until("all is shared", () => isShared(person));

/** What the user was told last, though it may have faded. */
export const notice = (person) => person.value("document.querySelector('#notice').textContent");
/** The user is told what a pattern says. */
export const told = (person, pattern) => until(`the user is told ${pattern}`, async () => pattern.test(await notice(person)));
export const state = (person) => person.value("document.querySelector('#state').textContent");
export const shows = (person, selector) =>
  person.value(`[...document.querySelectorAll(${JSON.stringify(selector)})].map((dom) => dom.textContent)`);

// What a function in the page finds on the screen. It looks twice: by the next frame what has come into sight is laid out as it is. What it
// scrolls to comes neither under the toolbar nor to the window's edge, where a drag would scroll on.
const seen = (person, what, look) => until(`${what} is shown`, () => person.value(`(async () => {
  const look = ${look};
  document.documentElement.style.scrollPadding = "110px 0 80px";
  if (look()) await new Promise((next) => requestAnimationFrame(() => setTimeout(next)));
  return look();
})()`));

/** Where a text of the page begins and ends on the screen. */
export const placeOf = (person, text) => seen(person, text, `() => {
  const walker = document.createTreeWalker(document.querySelector("#page"), NodeFilter.SHOW_TEXT);
  for (let node; (node = walker.nextNode()); ) {
    const at = node.data.indexOf(${JSON.stringify(text)});
    if (at < 0) continue;
    const range = document.createRange();
    range.setStart(node, at);
    range.setEnd(node, at + ${text.length});
    node.parentElement.scrollIntoView({ block: "nearest" });
    const boxes = [...range.getClientRects()], first = boxes[0], last = boxes.at(-1);
    return [[first.left + 0.5, first.top + first.height / 2], [last.right - 0.5, last.top + last.height / 2]];
  }
}`);

/** The middle of an element. */
export const middleOf = (person, selector) => seen(person, selector, `() => {
  const dom = document.querySelector(${JSON.stringify(selector)});
  if (!dom) return null;
  dom.scrollIntoView({ block: "nearest" });
  const box = dom.getBoundingClientRect();
  return [box.x + box.width / 2, box.y + box.height / 2];
}`);

// Whether the focus is in the page, and the selection is as a function in the page says of it.
const selects = (person, holds) => person.value(`(() => {
  const page = document.querySelector("#page"), selection = getSelection();
  if (document.activeElement !== page || !selection.rangeCount) return false;
  const { places } = vemodel.editor, range = selection.getRangeAt(0);
  const before = range.cloneRange();
  before.setStart(page, 0);
  const { collapsed } = range, [text, ahead] = [range, before].map(String);
  return (${holds})({ range, places, text, before: ahead, page: page.textContent, collapsed });
})()`);

// Measures and acts until the selection is as it should be: what others type moves the text meanwhile.
const untilSelected = (person, what, holds, act) => until(`the selection is ${what}`, async () => {
  await act();
  return holdsSoon(() => selects(person, holds));
});

// The other window's turns have to be on the screen, too: `meet` sees to that where it matters.
export function clickAfter(person, text) {
  const isBehind = `({ before, page, collapsed }) => {
    const text = ${JSON.stringify(text)};
    return collapsed && before.length === page.indexOf(text) + text.length;
  }`;
  return untilSelected(person, `behind ${text}`, isBehind, async () => person.click((await placeOf(person, text))[1]));
}

/** Clicks on a box of the page, which is selected as a whole. */
export function clickOn(person, selector) {
  const isOn = `({ places }) => {
    const [lo, hi] = places.selection(), dom = document.querySelector(${JSON.stringify(selector)});
    return hi - lo === 2 && places.leavesIn(lo, hi).some((leaf) => leaf.contains(dom));
  }`;
  return untilSelected(person, selector, isOn, async () => person.click(await middleOf(person, selector)));
}

export function tripleClick(person, text) {
  const isBlock = `({ range, text }) => {
    const { commonAncestorContainer: dom } = range;
    const block = (dom.nodeType === 1 ? dom : dom.parentElement).closest("p, li, td, h1, h2, h3");
    return text !== "" && block?.textContent === text;
  }`;
  return untilSelected(person, `all around ${text}`, isBlock, async () => {
    const [[x, y], [end]] = await placeOf(person, text);
    await person.click([(x + end) / 2, y], 3);
  });
}

export function dragOver(person, text) {
  const isText = `({ text }) => text === ${JSON.stringify(text)}`;
  return untilSelected(person, text, isText, async () => {
    const [from, to] = await placeOf(person, text);
    if (await selects(person, isText)) return;
    // what is selected would be dragged
    if (await selects(person, "({ collapsed }) => !collapsed")) await person.click(to);
    await person.sweep(from, to);
  });
}

/** Presses a button of the toolbar. */
export async function press(person, name) {
  await person.value(`globalThis.presses = 0;
    document.querySelector("[data-do=${name}]").addEventListener("click", () => presses++, { once: true })`);
  await until(`${name} is pressed`, async () => {
    await person.click(await middleOf(person, `[data-do=${name}]`));
    return holdsSoon(() => person.value("presses > 0"));
  });
}

/** The handle of the block in which a text is, once it is there. */
export function gripOf(person, text) {
  let aside = 0;
  return until(`the handle of ${text} is shown`, async () => {
    const [[x, y]] = await placeOf(person, text);
    aside = (aside + 1) % 2; // a mouse that stays where it is tells nothing
    await person.move([x + 2 + aside, y]);
    const { left, top, width, height } = await person.value("document.querySelector('#grip').getBoundingClientRect().toJSON()");
    return width > 0 && top <= y && y <= top + 2 * height ? [left + width / 2, top + height / 2] : null;
  });
}

/** Whether the line that shows where a block would come to stand is there, behind a place. */
export const lineIsBehind = (person, [, y]) => person.value(`(() => {
  const { top, width } = document.querySelector("#line").getBoundingClientRect();
  return width > 0 && top > ${y} && top < ${y} + 40;
})()`);

/** The browser has the editor's files, so that it opens without a server. */
export const filesKept = (person) => until("the files are kept", () => person.value("caches.match('vemodel/vemodel.wasm').then(Boolean)"));

/** Chooses a word of a menu of the toolbar. */
export async function choose(person, menu, word) {
  await person.value(`(() => {
    const dom = document.querySelector("#bar select[aria-label='${menu}']");
    dom.dispatchEvent(new MouseEvent("mousedown", { bubbles: true }));
    dom.value = "${word}";
    dom.dispatchEvent(new Event("change", { bubbles: true }));
  })()`);
}

/** As fast as they go; what is to come of them waits its turn. */
export async function keys(person, ...names) {
  await Promise.all(names.map((name) => person.key(name)));
}

/** As one step of the editor's: on a slow machine a second may pass between two letters, so the page's clock stands meanwhile. */
export async function typeAtOnce(person, text) {
  await person.value("void (performance.now = ((now) => () => now)(performance.now()))");
  await person.type(text);
  await person.value("delete performance.now");
}

export async function selectAll(person) {
  await person.key("ctrl+a", "selectAll");
}

// The clipboard is for the window in front.
function byClipboard(person, key, command) {
  return person.untilSeen(command, async () => {
    await person.call("Page.bringToFront");
    await person.key(key, command);
  });
}
export const cut = (person) => byClipboard(person, "ctrl+x", "cut");
export const pasteBack = (person) => byClipboard(person, "ctrl+v", "paste");

/** Acts while the browser tells of no selection: it does so late, and another's change may come before. */
export async function untold(person, act) {
  await person.value("addEventListener('selectionchange', globalThis.mute = (event) => event.stopImmediatePropagation(), true)");
  await act();
  await person.value("removeEventListener('selectionchange', mute, true)");
}

/** Acts while what the window sends doesn't leave it. */
export async function unsent(person, act) {
  await person.value(`void (({ fetch }) => {
    const leave = new Promise((tell) => (globalThis.leave = tell));
    globalThis.fetch = (...words) => leave.then(() => (globalThis.fetch = fetch)(...words));
  })(globalThis)`);
  await act();
  await person.value("leave()");
}

/** Copies, and gives the HTML that other programs get. */
export async function copied(person) {
  await person.value(`delete globalThis.copied; addEventListener("copy", ({ clipboardData }) => {
    globalThis.copied = clipboardData.getData("text/html");
  }, { once: true })`);
  await byClipboard(person, "ctrl+c", "copy");
  const { text } = await until("it is copied", () => person.value("'copied' in globalThis && { text: copied }"));
  return text;
}

/** Pastes what another program put on the clipboard. */
export async function paste(person, text) {
  await until("the clipboard holds what is to be pasted", async () => {
    await person.call("Page.bringToFront");
    return person.value(`navigator.clipboard.write([new ClipboardItem({ "text/plain": new Blob(["-"], { type: "text/plain" }),
      "text/html": new Blob([${JSON.stringify(text)}], { type: "text/html" }) })]).then(() => true, () => false)`);
  });
  await pasteBack(person);
}

/**
 * Waits until all sites hold one page, and gives it. Each window has to show exactly what its site holds: its tree is the site's list,
 * and its screen is what a window that opens now would show.
 */
export async function meet(...people) {
  await until("all sites hold one page", async () => {
    const pages = new Set();
    for (const person of people) {
      if (!(await isShared(person))) return false;
      pages.add(await html(person));
    }
    return pages.size === 1;
  });
  for (const person of people) {
    const [shown, held, screen, fresh] = await person.value(`(async () => {
      const [tree, { Pairs }, { View }] = await Promise.all(["tree", "pairs", "view"].map((name) => import("./" + name + ".js")));
      const held = JSON.parse(vemodel.editor.session.read({ do: "data" }).slice(3));
      const root = tree.newRoot(), host = document.createElement("div");
      const again = new View(host, root, new Pairs());
      again.update(root, 0, 0, tree.parse(held));
      for (const view of [again, vemodel.editor.view]) view.drawAll();
      return [tree.itemsOf(vemodel.editor.root.kids), held, document.querySelector("#page").innerHTML, host.innerHTML];
    })()`);
    assert.deepEqual(shown, held, "a window's tree isn't its site's list");
    assert.equal(screen, fresh, "a window's screen isn't its tree");
  }
  return html(people[0]);
}
