// Moving a block, or an item of a list, as a whole. What is put in is what `data` shows of it, so the page's own bytes of it stay.
import { ends, isItem, replaced, select } from "./edits.js";
import { around, endOf, innermost, isLeaf, itemsOf, shown, startOf } from "./tree.js";

const HOLDERS = new Set(["root", "section", "div", "blockquote"]);
const isMovable = (node) => node.kind !== "section" && node.parent !== null && (isItem(node) || HOLDERS.has(node.parent.kind));

/**
 * The block or the item that a node is in.
 * @type {(node: TreeNode) => TreeNode | null}
 */
export const blockAt = (node) => around(node, isMovable);

/**
 * Whether one may be put beside another.
 * @type {(node: TreeNode, other: TreeNode) => boolean}
 */
export const fitsBeside = (node, other) => isItem(node) === isItem(other) && around(other, (up) => up === node) === null;

/**
 * Puts a block before another one, or behind it, with the caret in it as before.
 * @type {(root: TreeNode, node: TreeNode, other: TreeNode, isBehind: boolean, selection: Selected) => Answer}
 */
export function movedBeside(root, node, other, isBehind, selection) {
  const from = startOf(node), at = isBehind ? endOf(other) : startOf(other);
  if (at >= from && at <= from + node.size) return null;
  const [lo, hi] = ends(selection);
  const by = (at > from ? at - node.size : at) - from;
  const isInside = lo >= from && hi <= from + node.size;
  const lines = [replaced(root, [{ at: from, gone: node.size, came: [] }, { at, gone: 0, came: itemsOf([node]) }])];
  if (isInside) lines.push(select(selection[0] + by, selection[1] + by));
  return { lines, what: "a block that was moved" };
}

/**
 * The block of the selection, one up or down.
 * @type {(root: TreeNode, selection: Selected, step: number) => Answer}
 */
export function movedBy(root, selection, step) {
  const [lo, hi] = ends(selection);
  const here = innermost(root, lo);
  const leaf = here.kids.find((kid) => isLeaf(kid) && startOf(kid) === lo && hi - lo === kid.size);
  const node = blockAt(leaf && !here.open ? leaf : here);
  const beside = node && shown(node.parent)[shown(node.parent).indexOf(node) + step];
  return beside && fitsBeside(node, beside) ? movedBeside(root, node, beside, step > 0, selection) : null;
}
