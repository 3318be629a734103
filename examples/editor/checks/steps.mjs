// What a person does, as tables say it: a word and what it needs.
import assert from "node:assert/strict";
import { until } from "../browser.mjs";
import { drag, dropFromOutside } from "../dragging.mjs";
import { choose, clickAfter, clickOn, copied, cut, dragOver, gripOf, keys, lineIsBehind, paste, pasteBack, placeOf, press,
  tripleClick, typeAtOnce } from "../person.mjs";

const WORDS = {
  click: clickAfter, // behind a text
  on: clickOn, // an element
  over: dragOver, // a text
  triple: tripleClick,
  keys,
  press, // a button
  choose, // a word of a menu
  paste,
  cut,
  back: pasteBack,
  type: typeAtOnce,
  compose: (person, texts, over) => person.compose(texts, over),
  copy: async (person, html) => assert.equal(await copied(person), html),

  async field(person, button, ...texts) {
    await press(person, button);
    await until("the field is there", () => person.value("document.activeElement.localName === 'input'"));
    for (const [k, text] of texts.entries()) {
      if (k > 0) await person.key("Tab");
      await person.type(text);
    }
    await keys(person, "Enter");
    await until("the field is gone", () => person.value("document.activeElement.id === 'page'"));
  },

  // A selected text to behind another one. `midway` is what happens meanwhile.
  async drag(person, text, to, midway) {
    const target = async () => (await placeOf(person, to))[1];
    const places = async () => {
      await dragOver(person, text);
      const end = await target();
      const [[left, y], [right]] = await placeOf(person, text);
      return [[(left + right) / 2, y], end];
    };
    await drag(person, { places, target, midway });
  },

  // What another program drags, to behind a text.
  async drop(person, html, to) {
    await dropFromOutside(person, html, (await placeOf(person, to))[1]);
  },

  // The block of a text to below that of another one, by its handle. `before` is what happens between the handle's coming and the press.
  async block(person, text, to, midway, before) {
    const target = async () => {
      const [, [x, y]] = await placeOf(person, to);
      return [x, y + 6];
    };
    const places = async () => {
      const end = await target(), grip = await gripOf(person, text);
      await before?.();
      return [grip, end];
    };
    await drag(person, { places, target, midway, isOver: (at) => lineIsBehind(person, at), isHandle: true });
  },
};

export async function run(person, steps) {
  for (const [word, ...rest] of steps) await WORDS[word](person, ...rest);
}

/** Tables by their parts, as one list of cases. */
export const casesOf = (parts) => Object.entries(parts)
  .flatMap(([part, list]) => list.map(([name, page, steps, wanted]) => ({ part, name: `${part}: ${name}`, page, steps, wanted })));
