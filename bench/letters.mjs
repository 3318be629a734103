// What bench/web measures, in a page and in Node alike.
import { World, compile } from "../clients/web/world.js";

const EARLY = 100, WARM = 5000; // letters that are typed at first; and then, before the others are measured
const ROUNDS = 10, LETTERS = 500;
const before = (index) => `Paragraph ${String(index).padStart(6, "0")} has some words in a line of `;
const STRONG = "text", AFTER = " that go on.";
const LENGTH = (before(0) + STRONG + AFTER).length;
const INTO = 4; // where in its paragraph the first letter goes

/** Milliseconds from the start of the page, or of Node, to the first reply. */
export async function firstReply(source) {
  const reply = new World(await compile(source)).line('{"do":"open","page":"<p>ab</p>"}');
  if (reply !== "ok 6") throw new Error(reply);
  return performance.now();
}

// Each opens so many paragraphs, and gives what types the next letter there, the text of that paragraph in the end, and, where it isn't
// the engine's own, the memory it has.
const SUBJECTS = {
  vemodel(module, count, middle) {
    const world = new World(module);
    const page = Array.from({ length: count }, (_, index) => `<p>${before(index)}<b>${STRONG}</b>${AFTER}</p>`).join("");
    world.line(JSON.stringify({ do: "open", page }));
    const from = middle * (LENGTH + 2) + 1;
    let at = from + INTO;
    return {
      type: () => world.line(`{"do":"text","at":${at++},"text":"x"}`),
      text() {
        const items = JSON.parse(world.line(`{"do":"data","from":${from},"to":${at + LENGTH - INTO}}`).slice("ok ".length));
        return items.map((it) => (Array.isArray(it) ? it[0] : it)).join("");
      },
      size: () => world.size,
    };
  },
  yjs({ Doc, XmlElement, XmlText }, count, middle) {
    const doc = new Doc(), page = doc.getXmlFragment("page");
    const texts = Array.from({ length: count }, () => new XmlText());
    doc.transact(() => {
      page.insert(0, texts.map((text) => {
        const paragraph = new XmlElement("p");
        paragraph.insert(0, [text]);
        return paragraph;
      }));
      const parts = (index) => [{ insert: before(index) }, { insert: STRONG, attributes: { b: true } }, { insert: AFTER }];
      texts.forEach((text, index) => text.applyDelta(parts(index)));
    });
    let at = INTO;
    return { type: () => texts[middle].insert(at++, "x"), text: () => texts[middle].toDelta().map((it) => it.insert).join("") };
  },
  prosemirror({ Schema, EditorState }, count, middle) {
    const schema = new Schema({
      nodes: { doc: { content: "p+" }, p: { content: "text*" }, text: {} },
      marks: { b: {} },
    });
    const parts = (index) => [schema.text(before(index)), schema.text(STRONG, [schema.mark("b")]), schema.text(AFTER)];
    const paragraphs = Array.from({ length: count }, (_, index) => schema.node("p", null, parts(index)));
    let state = EditorState.create({ doc: schema.node("doc", null, paragraphs) });
    let at = middle * (LENGTH + 2) + 1 + INTO;
    return { type: () => (state = state.apply(state.tr.insertText("x", at++))), text: () => state.doc.child(middle).textContent };
  },
};

/**
 * Measures each of these, which are by name the module and the peers' exports, on a page of few and of many paragraphs. These take turns, so
 * that what else the machine does goes by all alike.
 */
export async function both(given, few, many) {
  const found = { few: await opened(given, few), many: await opened(given, many) };
  const all = Object.keys(given).flatMap((name) => [found.few[name], found.many[name]]);
  for (let round = 0; round < ROUNDS; round++) for (const it of all) it.letter = Math.min(it.letter, letters(it.page, LETTERS));
  for (const it of all) {
    if (it.page.text() !== it.wanted) throw new Error(`a text is another: ${it.page.text()}`);
    delete it.page; // the figures are posted
  }
  return found;
}

// Opens each on a page of so many paragraphs, and types until the engine has compiled it as well as it does.
async function opened(given, count) {
  const middle = count >> 1, text = before(middle);
  const wanted = text.slice(0, INTO) + "x".repeat(EARLY + WARM + ROUNDS * LETTERS) + text.slice(INTO) + STRONG + AFTER;
  const found = {};
  for (const [name, it] of Object.entries(given)) {
    const held = await heap(), began = performance.now();
    const page = SUBJECTS[name](it, count, middle);
    const opens = performance.now() - began, size = page.size?.() ?? (await heap()) - held;
    found[name] = { page, wanted, opens, size: Number.isNaN(size) ? null : size, early: letters(page, EARLY), letter: Infinity };
    letters(page, WARM);
  }
  return found;
}

// Microseconds a letter, of so many.
function letters({ type }, count) {
  const began = performance.now();
  for (let letter = 0; letter < count; letter++) type();
  return ((performance.now() - began) / count) * 1000;
}

// Bytes of the engine's heap, once what nobody holds is gone; NaN where the engine doesn't tell.
async function heap() {
  globalThis.gc?.();
  await new Promise((next) => setTimeout(next, 50));
  globalThis.gc?.();
  return globalThis.process?.memoryUsage().heapUsed ?? performance.memory?.usedJSHeapSize ?? NaN;
}
