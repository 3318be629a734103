// What a key asks, as lines over the items that are shown, and where the caret goes.
const CONTENT = /^(p|h[1-6]|pre)$/;

const isChar = (item) => Array.isArray(item);
const words = new Intl.Segmenter();

/** The content branches: where their text begins and ends, and their kind. */
export function branches(items) {
  const found = [];
  for (const [at, item] of items.entries()) {
    if (CONTENT.test(item.open)) found.push({ kind: item.open, from: at + 1, to: at + 1 });
    else if (CONTENT.test(item.close)) found.at(-1).to = at;
  }
  return found;
}

export function typed({ items, selection }, text) {
  const [from, to] = ends(selection);
  if (branches(items).some((branch) => branch.from <= from && to <= branch.to)) {
    return { lines: [...removal(from, to), { do: "text", at: from, text }], selection: caret(from + [...text].length) };
  }
  const first = branches(items)[0];
  return first && { lines: [{ do: "text", at: first.from, text }], selection: caret(first.from + [...text].length) };
}

/** @param {"back" | "ahead"} dir */
export function erased({ items, selection }, dir) {
  const [from, to] = ends(selection);
  if (from < to) return { lines: removal(from, to), selection: caret(from) };
  const all = branches(items), k = all.findIndex((branch) => branch.from <= from && from <= branch.to);
  if (k < 0) return null;
  if (dir === "back" && from > all[k].from) return erasedIn(back(items, all[k].from, from), from);
  if (dir === "ahead" && from < all[k].to) return erasedIn(from, ahead(items, from, all[k].to));
  return joined(dir === "back" ? all[k - 1] : all[k], dir === "back" ? all[k] : all[k + 1]);
}

/** Enter: a new paragraph, or a new item of a list. */
export function parted({ items, selection }) {
  const [from, to] = ends(selection);
  const branch = branches(items).find(({ from: begin, to: end }) => begin <= from && from <= end);
  if (!branch) return null;
  const depth = items[branch.from - 2]?.open === "li" ? 2 : 1;
  return { lines: [...removal(from, to), { do: "split", at: from, depth }], selection: caret(from + 2 * depth) };
}

const ends = ([anchor, focus]) => [Math.min(anchor, focus), Math.max(anchor, focus)];
const caret = (at) => [at, at];
const removal = (from, to) => (from < to ? [{ do: "remove", from, to }] : []);
const erasedIn = (from, to) => ({ lines: removal(from, to), selection: caret(from) });

// Two paragraphs with nothing between them become one.
function joined(first, second) {
  if (!first || !second || second.from - first.to !== 2) return null;
  return { lines: removal(first.to, second.from), selection: caret(first.to) };
}

// Where what a user sees as one sign begins, or ends; a leaf is two items.
function back(items, from, at) {
  if (!isChar(items[at - 1])) return at - 2;
  const signs = [...words.segment(run(items, from, at))];
  return at - [...signs.at(-1).segment].length;
}

function ahead(items, at, to) {
  if (!isChar(items[at])) return at + 2;
  const [sign] = words.segment(run(items, at, to));
  return at + [...sign.segment].length;
}

const run = (items, from, to) => items.slice(from, to).map((item) => (isChar(item) ? item[0] : "\0")).join("");
