// Of a long list of siblings what is far from the screen is drawn later. Until then one empty element, a shell, stands for some of them, as
// high as they may be; it is drawn when it comes near.
import { isContent, isText } from "./tree.js";

const GROUP = 3000; // items that a shell stands for; a screen shows about as many
const NEAR = 1500; // pixels
const LINE = 75; // characters
const HEIGHT = 1.6; // of a line, in em

function linesOf(node) {
  if (isText(node)) return 0;
  if (isContent(node) || node.kids.length === 0) return Math.ceil(node.size / LINE) + 0.5;
  return node.kids.reduce((lines, kid) => lines + linesOf(kid), 0);
}

function grouped(nodes) {
  const groups = [];
  let size = Infinity;
  for (const node of nodes) {
    if (size + node.size > GROUP) {
      groups.push([]);
      size = 0;
    }
    groups.at(-1).push(node);
    size += node.size;
  }
  return groups;
}

export class Later {
  #build;
  #drawn;
  #shells = new WeakMap(); // by the nodes that they stand for
  #nodes = new WeakMap(); // and the other way
  #near = new IntersectionObserver((entries) => this.#arrive(entries), { rootMargin: `${NEAR}px 0px` });

  /** `build` makes the DOM node of a node; `drawn` is told when a shell was drawn because it came near. */
  constructor(build, drawn) {
    this.#build = build;
    this.#drawn = drawn;
  }

  /** The DOM nodes of siblings: the first ones as they are, and shells for what follows. */
  build(nodes) {
    const [first = [], ...rest] = grouped(nodes);
    return [...first.map(this.#build), ...rest.map((group) => this.#shell(group))];
  }

  #shell(nodes) {
    const dom = document.createElement("div");
    dom.className = "later";
    dom.style.height = `${HEIGHT * nodes.reduce((lines, node) => lines + linesOf(node), 0)}em`;
    this.#nodes.set(dom, nodes);
    for (const node of nodes) this.#shells.set(node, dom);
    this.#near.observe(dom);
    return dom;
  }

  #arrive(entries) {
    const near = entries.filter((entry) => entry.isIntersecting && this.#nodes.has(entry.target));
    for (const { target } of near) this.draw(target);
    if (near.length) this.#drawn();
  }

  shellOf(node) {
    return this.#shells.get(node);
  }

  nodesOf(shell) {
    return this.#nodes.get(shell);
  }

  /** Draws what a shell stands for, in its place. */
  draw(shell) {
    const nodes = this.#nodes.get(shell);
    const doms = nodes.map(this.#build);
    this.forget(shell);
    shell.replaceWith(...doms);
  }

  /** A shell that goes, since its nodes are drawn or are gone. */
  forget(shell) {
    for (const node of this.#nodes.get(shell)) this.#shells.delete(node);
    this.#nodes.delete(shell);
    this.#near.unobserve(shell);
  }
}
