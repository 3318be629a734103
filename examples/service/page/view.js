// The page on the screen: each of its content branches is a block, one under the other. No HTML of the page gets into the document.
import { branches } from "./edits.js";

const TAGS = new Set("a b strong i em u ins code".split(" ")); // marks that are shown

export class View {
  #host;
  #blocks = []; // { dom, said, from, to } in their order

  constructor(host) {
    this.#host = host;
  }

  /** Draws what is not as it was. */
  draw(items) {
    const fresh = branches(items).map((branch) => ({ ...branch, runs: runsOf(items, branch) }));
    const said = fresh.map(({ kind, runs }) => JSON.stringify([kind, runs]));
    const old = this.#blocks;
    let head = 0, tail = 0;
    const most = Math.min(old.length, fresh.length);
    while (head < most && old[head].said === said[head]) head++;
    while (tail < most - head && old.at(-1 - tail).said === said.at(-1 - tail)) tail++;
    for (const { dom } of old.slice(head, old.length - tail)) dom.remove();
    const after = tail ? old.at(-tail).dom : null;
    this.#blocks = fresh.map(({ from, to, kind, runs }, k) => {
      const isNew = k >= head && k < fresh.length - tail;
      const dom = isNew ? block(kind, runs) : old[k < head ? k : k - fresh.length + old.length].dom;
      if (isNew) this.#host.insertBefore(dom, after);
      return { dom, said: said[k], from, to };
    });
  }

  /** The offset of a place in the document; null where it is none of the page. */
  offset(node, k) {
    const place = node === this.#host ? this.#host.childNodes[Math.min(k, this.#host.childNodes.length - 1)] : node;
    const found = this.#blocks.find(({ dom }) => dom === place || dom.contains(place));
    if (!found) return null;
    let at = found.from;
    for (const [n, run] of [...found.dom.childNodes].entries()) {
      if (place === found.dom && node !== this.#host && n === k) return at;
      if (run === node || run.contains(node)) return node.nodeType === 3 && sizeOf(run) ? at + [...node.data.slice(0, k)].length : at;
      if (place === found.dom && node === this.#host) return at;
      at += sizeOf(run);
    }
    return at;
  }

  /** The place in the document of an offset: a node, and where in it. */
  point(at) {
    const found = this.#blocks.find(({ to }) => at <= to) ?? this.#blocks.at(-1);
    if (!found) return [this.#host, 0];
    let rest = Math.max(0, at - found.from);
    for (const run of found.dom.childNodes) {
      const size = sizeOf(run);
      if (rest <= size && run.className !== "leaf" && run.firstChild) {
        return [run.firstChild, [...run.firstChild.data].slice(0, rest).join("").length];
      }
      rest -= size;
    }
    return [found.dom, Math.max(0, found.dom.childNodes.length - (found.dom.lastChild?.nodeName === "BR" ? 1 : 0))];
  }

  range(from, to) {
    const range = document.createRange();
    range.setStart(...this.point(from));
    range.setEnd(...this.point(to));
    return range;
  }
}

// Characters beside each other with the same marks, and leaves.
function runsOf(items, { from, to }) {
  const runs = [];
  for (const item of items.slice(from, to)) {
    if (item.close) continue;
    const classes = Array.isArray(item) ? item[1].map(([tag]) => tag).filter((tag) => TAGS.has(tag)).join(" ") : "leaf";
    const text = Array.isArray(item) ? item[0] : `[${item.open}]`;
    const last = runs.at(-1);
    if (last && last[0] === classes && classes !== "leaf") last[1] += text;
    else runs.push([classes, text]);
  }
  return runs;
}

function block(kind, runs) {
  const dom = document.createElement("div");
  dom.className = kind;
  for (const [classes, text] of runs) {
    const run = document.createElement("span");
    run.className = classes;
    run.textContent = text;
    if (classes === "leaf") run.contentEditable = "false";
    dom.append(run);
  }
  if (runs.length === 0) dom.append(document.createElement("br"));
  return dom;
}

// A leaf is two items; the break of an empty block is none.
function sizeOf(run) {
  if (run.nodeName === "BR") return 0;
  return run.className === "leaf" ? 2 : [...run.textContent].length;
}
