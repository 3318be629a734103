// The page as a tree of what `data` shows: elements and runs of text, each with its size in items. Offsets are found by sums, so an
// edit changes the sizes of a node and of those around it, and nothing else.
import { scalars } from "./scalars.js";

export const CONTENT = new Set(["p", "h1", "h2", "h3", "h4", "h5", "h6", "pre"]);
const LEAVES = new Set(["br", "img", "ref", "trans_inline", "trans_block", "alien_inline", "alien_block"]);
const FLOW = new Set(["root", "section", "li", "dt", "dd", "blockquote", "div", "td", "th", "caption", "internal_item"]);
const BLOCKS = new Set([...CONTENT, "ul", "ol", "dl", "blockquote", "div", "table", "trans_block", "alien_block"]);
const PARTS = {
  ul: ["li"], ol: ["li"], dl: ["dt", "dd"], table: ["caption", "thead", "tbody", "tfoot"], thead: ["tr"], tbody: ["tr"], tfoot: ["tr"],
  tr: ["td", "th"],
};

/**
 * Whether a node of one kind may stand in one of another.
 * @type {(outer: string, inner: string) => boolean}
 */
export function mayHold(outer, inner) {
  if (CONTENT.has(outer)) return inner === "text" || (LEAVES.has(inner) && !inner.endsWith("block"));
  if (PARTS[outer]) return PARTS[outer].includes(inner) || (LEAVES.has(inner) && inner.endsWith("block"));
  if (inner === "section") return ["root", "section", "div"].includes(outer);
  return FLOW.has(outer) && BLOCKS.has(inner);
}

// The text of references stands here, at the end of the list. It is counted, and not shown.
export const HIDDEN = "internal_list";

/**
 * An element has `open` and `close`, the two items, and `kids`; a run has `text` and `marks`. The root has `kids` alone.
 * @type {() => TreeNode}
 */
export const newRoot = () => ({ kind: "root", kids: [], size: 0, parent: null });
/** @type {(node: TreeNode) => boolean} */
export const isText = (node) => node.kind === "text";
/** @type {(node: TreeNode) => boolean} */
export const isLeaf = (node) => LEAVES.has(node.kind);
/** @type {(node: TreeNode) => boolean} */
export const isContent = (node) => CONTENT.has(node.kind);
/** @type {(node: TreeNode) => TreeNode[]} */
export const shown = (node) => node.kids.filter((kid) => kid.kind !== HIDDEN);

/**
 * The nodes of a list of items, or nothing where an opening or a closing among them has no partner.
 * @type {(items: Item[]) => TreeNode[] | null}
 */
export function parse(items) {
  const top = { kids: [], size: 0 };
  let inner = top;
  for (const item of items) {
    if (item.open !== undefined) {
      inner = { kind: item.open, open: item, close: null, kids: [], size: 1, parent: inner };
    } else if (item.close !== undefined) {
      if (inner === top) return null;
      inner.close = item;
      inner.size++;
      const outer = inner.parent;
      outer.kids.push(inner);
      outer.size += inner.size;
      inner = outer;
    } else {
      const [text, marks] = typeof item === "string" ? [item, []] : item;
      const size = scalars(text);
      inner.kids.push({ kind: "text", text, marks, size, parent: inner });
      inner.size += size;
    }
  }
  return inner === top ? top.kids : null;
}

/**
 * The items of nodes, as `data` shows them.
 * @type {(nodes: TreeNode[], out?: Item[]) => Item[]}
 */
export function itemsOf(nodes, out = []) {
  for (const node of nodes) {
    if (isText(node)) {
      out.push(node.marks.length ? [node.text, node.marks] : node.text);
    } else {
      out.push(node.open);
      itemsOf(node.kids, out);
      out.push(node.close);
    }
  }
  return out;
}

/**
 * Puts nodes in the place of the children from `from` to `to`.
 * @type {(parent: TreeNode, from: number, to: number, nodes: TreeNode[]) => void}
 */
export function replaceKids(parent, from, to, nodes) {
  let grown = 0;
  for (const kid of parent.kids.slice(from, to)) grown -= kid.size;
  parent.kids = [...parent.kids.slice(0, from), ...nodes, ...parent.kids.slice(to)];
  for (const node of nodes) {
    node.parent = parent;
    grown += node.size;
  }
  for (let up = parent; up; up = up.parent) up.size += grown;
}

const bracket = (node) => (node.kind === "root" ? 0 : 1);

/** @type {(node: TreeNode) => number} */
export function startOf(node) {
  if (!node.parent) return 0;
  let at = innerStart(node.parent);
  for (const kid of node.parent.kids) {
    if (kid === node) return at;
    at += kid.size;
  }
  throw new Error("a node that isn't in the tree");
}

/**
 * Whether the node is in the tree still, and no other came in its place.
 * @type {(root: TreeNode, node: TreeNode) => boolean}
 */
export const isIn = (root, node) => node === root || (node.parent?.kids.includes(node) && isIn(root, node.parent)) === true;

/** @type {(node: TreeNode) => number} */
export const endOf = (node) => startOf(node) + node.size;
/** @type {(node: TreeNode) => number} */
export const innerStart = (node) => startOf(node) + bracket(node);
/** @type {(node: TreeNode) => number} */
export const innerEnd = (node) => endOf(node) - bracket(node);

/**
 * The innermost element whose inside holds the offset; a leaf counts as a whole.
 * @type {(root: TreeNode, at: number) => TreeNode}
 */
export function innermost(root, at) {
  let node = root;
  for (let rest = at; ; ) {
    let next = null;
    for (const kid of node.kids) {
      if (rest <= 0) break;
      if (rest < kid.size) {
        next = kid;
        break;
      }
      rest -= kid.size;
    }
    if (!next || isText(next) || isLeaf(next)) return node;
    node = next;
    rest -= 1;
  }
}

/**
 * The node, or the innermost one around it, for which the test holds.
 * @type {(node: TreeNode | null, test: (node: TreeNode) => boolean) => TreeNode | null}
 */
export function around(node, test) {
  for (let up = node; up; up = up.parent) if (test(up)) return up;
  return null;
}

/** @type {(node: TreeNode) => TreeNode[]} */
export function ancestors(node) {
  const out = [];
  for (let up = node; up; up = up.parent) out.unshift(up);
  return out;
}

/** @type {(a: TreeNode, b: TreeNode) => TreeNode} */
export function commonOf(a, b) {
  const of = ancestors(a);
  return ancestors(b).findLast((node, k) => of[k] === node);
}

// Where a caret may stand: in a content branch, or in an empty element to which the program gives a paragraph when something is typed.
const takesCaret = (node) => isContent(node) || (FLOW.has(node.kind) && shown(node).length === 0);

/**
 * Where a caret may stand, that is nearest to the offset: on the left first, unless `ahead` says otherwise.
 * @type {(root: TreeNode, at: number, ahead?: boolean) => number}
 */
export function caretPlace(root, at, ahead = false) {
  const here = innermost(root, at);
  if (takesCaret(here)) return at;
  let before = null, after = null;
  const look = (node, from) => {
    if (takesCaret(node)) {
      if (from + node.size - bracket(node) < at) before = from + node.size - bracket(node);
      else if (after === null && from + bracket(node) > at) after = from + bracket(node);
      return;
    }
    let start = from + bracket(node);
    for (const kid of shown(node)) {
      if (!isText(kid) && !isLeaf(kid)) look(kid, start);
      start += kid.size;
    }
  };
  look(root, 0);
  return (ahead ? after ?? before : before ?? after) ?? 0;
}

/**
 * The content branches that the range touches, in order.
 * @type {(root: TreeNode, from: number, to: number) => TreeNode[]}
 */
export function branchesIn(root, from, to) {
  const out = [];
  const look = (node, start) => {
    if (isContent(node)) {
      if (from < start + node.size && to > start) out.push(node);
      return;
    }
    let at = start + bracket(node);
    for (const kid of shown(node)) {
      if (!isText(kid) && !isLeaf(kid) && from < at + kid.size && to > at) look(kid, at);
      at += kid.size;
    }
  };
  look(root, 0);
  return out;
}

/**
 * The children of a branch that the range touches, each with the part of it that is in the range.
 * @type {(branch: TreeNode, from: number, to: number) => { kid: TreeNode, from: number, to: number }[]}
 */
export function runsIn(branch, from, to) {
  const out = [];
  let at = innerStart(branch);
  for (const kid of branch.kids) {
    if (from < at + kid.size && to > at) out.push({ kid, from: Math.max(from, at), to: Math.min(to, at + kid.size) });
    at += kid.size;
  }
  return out;
}

/**
 * What stands just before the offset in its branch, or nothing.
 * @type {(branch: TreeNode, at: number) => TreeNode | null}
 */
export function leftOf(branch, at) {
  let start = innerStart(branch);
  let left = null;
  for (const kid of branch.kids) {
    if (start >= at) break;
    left = kid;
    start += kid.size;
  }
  return left;
}

/**
 * A node's marks, be it a run or a leaf.
 * @type {(node: TreeNode) => Mark[]}
 */
export const marksOf = (node) => (isText(node) ? node.marks : node.open.marks) ?? [];
