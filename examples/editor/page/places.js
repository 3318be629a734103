// Offsets as places in the document, and back.
import { caretPlace, endOf, innerStart, innermost, isContent, isLeaf, isText, shown, startOf } from "./tree.js";
import { scalars, units } from "./scalars.js";

const indexOf = (dom) => Array.prototype.indexOf.call(dom.parentNode.childNodes, dom);

export class Places {
  #root;
  #host;
  #pairs;
  #view;

  constructor(host, root, pairs, view) {
    this.#host = host;
    this.#root = root;
    this.#pairs = pairs;
    this.#view = view;
  }

  /** The offset of a place in the document, moved to the nearest one where a caret may stand. */
  offset(dom, k) {
    const leaf = this.leafAt(dom);
    const at = leaf && leaf.kind !== "br" ? startOf(leaf) : this.#place(dom, k);
    return caretPlace(this.#root, at, k === 0);
  }

  /** The offset under a point of the screen, or nothing where the page isn't there. */
  offsetAt(x, y) {
    const at = document.caretPositionFromPoint?.(x, y) ?? document.caretRangeFromPoint?.(x, y);
    const [dom, k] = at ? [at.offsetNode ?? at.startContainer, at.offset ?? at.startOffset] : [null, 0];
    return dom && this.#host.contains(dom) ? this.offset(dom, k) : null;
  }

  /** The node that a DOM node shows, or is a part of. */
  nodeAt(dom) {
    for (let up = dom; up && up !== this.#host; up = up.parentNode) {
      const node = this.#pairs.nodeOf(up);
      if (node) return node;
    }
    return null;
  }

  /** The leaf that a DOM node is, or is a part of. */
  leafAt(dom) {
    const node = this.nodeAt(dom);
    return node && isLeaf(node) ? node : null;
  }

  #place(dom, k) {
    if (dom.nodeType === Node.TEXT_NODE) {
      const run = this.#pairs.nodeOf(dom);
      return run ? startOf(run) + scalars(dom.data, k) : this.#before(dom);
    }
    if (dom.childNodes[k]) return this.#before(dom.childNodes[k]);
    const node = dom.lastChild ? null : this.#pairs.nodeOf(dom);
    return node ? innerStart(node) : this.#after(dom.lastChild ?? dom);
  }

  // A DOM node that shows nothing of the tree is a mark, a filler at the end of its line, or a shell.
  #before(dom) {
    const node = this.#pairs.nodeOf(dom) ?? this.#view.standsFor(dom)?.at(0);
    if (node) return startOf(node);
    if (dom.firstChild) return this.#before(dom.firstChild);
    return dom.previousSibling ? this.#after(dom.previousSibling) : innerStart(this.#pairs.nodeOf(dom.parentNode));
  }

  #after(dom) {
    const node = this.#pairs.nodeOf(dom) ?? this.#view.standsFor(dom)?.at(-1);
    if (node) return endOf(node);
    return dom.lastChild ? this.#after(dom.lastChild) : this.#before(dom);
  }

  // The place in the document of the caret at an offset: at a border the end of what is on the left, whose marks typing takes.
  #point(offset) {
    const at = caretPlace(this.#root, offset);
    const node = innermost(this.#root, at);
    this.#view.reach(node);
    const host = this.#pairs.domOf(node);
    if (!isContent(node)) return [host, 0];
    let rest = at - innerStart(node);
    for (const kid of node.kids) {
      const dom = this.#pairs.domOf(kid);
      if (isText(kid) && rest <= kid.size) return [dom, units(kid.text, rest)];
      if (rest === 0) return [dom.parentNode, indexOf(dom)];
      rest -= kid.size;
    }
    const last = this.#pairs.domOf(node.kids.at(-1) ?? null);
    return last ? [last.parentNode, indexOf(last) + 1] : [host, 0];
  }

  /** Whether what stands at an offset is drawn. */
  isDrawn(at) {
    return Boolean(this.#pairs.domOf(innermost(this.#root, caretPlace(this.#root, at))));
  }

  /** Where a caret at the offset is on the screen; an empty line has no text that could say so. */
  box(at) {
    const range = this.range(at, at);
    return range.getClientRects()[0] ?? range.startContainer.getBoundingClientRect();
  }

  /** The drawn leaves of a range, but for breaks. */
  leavesIn(from, to) {
    const out = [];
    const look = (node, start) => {
      let at = start;
      for (const kid of shown(node)) {
        const end = at + kid.size;
        if (isLeaf(kid) && kid.kind !== "br" && from <= at && end <= to && this.#pairs.domOf(kid)) out.push(this.#pairs.domOf(kid));
        else if (!isText(kid) && !isLeaf(kid) && from < end && at < to) look(kid, at + 1);
        at = end;
      }
    };
    look(this.#root, 0);
    return out;
  }

  range(from, to) {
    const range = document.createRange();
    const [begin, end] = this.#ends(from, to);
    range.setStart(...begin);
    range.setEnd(...end);
    return range;
  }

  // A leaf that is selected as a whole may stand where no caret may.
  #ends(anchor, focus) {
    const leaf = this.#leafOver(anchor, focus);
    if (!leaf) return [this.#point(anchor), this.#point(focus)];
    this.#view.reach(leaf);
    const dom = this.#pairs.domOf(leaf), k = indexOf(dom);
    return [[dom.parentNode, k], [dom.parentNode, k + 1]];
  }

  #leafOver(from, to) {
    if (to - from !== 2) return null;
    const leaf = innermost(this.#root, from).kids.find((kid) => isLeaf(kid) && startOf(kid) === from);
    return leaf && leaf.kind !== "br" ? leaf : null;
  }

  /** The browser's selection as offsets. Where the editor hasn't the focus nobody moves it, nor may it take the focus from elsewhere. */
  selection() {
    if (document.activeElement !== this.#host) return null;
    const { anchorNode, anchorOffset, focusNode, focusOffset } = document.getSelection();
    if (!anchorNode || !this.#host.contains(anchorNode) || !this.#host.contains(focusNode)) return null;
    const leaf = anchorNode === focusNode && focusOffset === anchorOffset + 1 && this.leafAt(anchorNode.childNodes?.[anchorOffset]);
    if (leaf && leaf.kind !== "br") return [startOf(leaf), endOf(leaf)];
    return [this.offset(anchorNode, anchorOffset), this.offset(focusNode, focusOffset)];
  }

  select(anchor, focus) {
    if (document.activeElement !== this.#host) return;
    const [begin, end] = this.#ends(anchor, focus);
    document.getSelection().setBaseAndExtent(...begin, ...end);
  }
}
