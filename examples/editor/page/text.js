// Typing, erasing and Enter.
import { outdented } from "./blocks.js";
import { cut, joined } from "./cut.js";
import { batch, dressed, ends, isItem, isList, listItem, replaced, select } from "./edits.js";
import { innerEnd, innerStart, innermost, isContent, shown, startOf } from "./tree.js";
import { scalars } from "./scalars.js";

/**
 * Text in the place of the selection; `marks` says which tags it shall have, and which not.
 * @type {(root: TreeNode, selection: Selected, text: string, marks?: Map<string, boolean>) => Answer}
 */
export function typed(root, selection, text, marks = new Map()) {
  const [lo, hi] = ends(selection);
  const branch = innermost(root, lo);
  const edit = { kind: "type", what: `typing “${text}”`, text };
  const plain = marks.size === 0 && innermost(root, hi) === branch;
  if (plain || !isContent(branch)) return { ...edit, lines: [{ do: "type", text }] };
  const came = [dressed(branch, lo, text, marks)];
  return { ...edit, lines: [replaced(root, [{ at: lo, gone: 0, came }, ...(lo < hi ? cut(root, lo, hi) : [])]), select(lo + scalars(text))] };
}

/**
 * A character or a word that way, or the selection. At the beginning of an item the item leaves its list, and at the edge of any other
 * branch the one beside it is joined.
 * @type {(root: TreeNode, selection: Selected, dir: string, by: string) => Answer}
 */
export function erased(root, selection, dir, by) {
  const [lo, hi] = ends(selection);
  if (lo < hi) return { lines: [replaced(root, cut(root, lo, hi)), select(lo)], what: "erasing" };
  const branch = innermost(root, lo);
  const edge = dir === "back" ? innerStart(branch) : innerEnd(branch);
  if (isContent(branch) && lo !== edge) return { lines: [{ do: "erase", dir, by }], kind: "erase", what: "erasing" };
  const item = listItem(branch);
  if (dir === "back" && item && lo === startOf(item) + (isContent(branch) ? 2 : 1)) return outdented(root, selection);
  return joined(root, branch, dir);
}

/**
 * Enter: a new paragraph, or a new item of a list; in an empty item the end of the list.
 * @type {(root: TreeNode, selection: Selected) => Answer}
 */
export function parted(root, selection) {
  const [lo, hi] = ends(selection);
  const branch = innermost(root, lo), what = "a new paragraph";
  if (!isContent(branch)) return { lines: [{ do: "insert", at: lo, html: "<p></p><p></p>" }, select(lo + 3)], what };
  if (branch.kind === "pre") return typed(root, selection, "\n");
  const item = isItem(branch.parent) ? branch.parent : null;
  if (item && lo === hi && branch.size === 2 && item.kids.length === 1 && isList(item.parent)) return outdented(root, selection);
  const depth = item && shown(item)[0] === branch ? 2 : 1;
  const cutting = lo < hi ? [replaced(root, cut(root, lo, hi))] : [];
  const next = lo + 2 * depth;
  // what follows a heading is a paragraph
  const plain = /^h\d$/.test(branch.kind) && hi === innerEnd(innermost(root, hi)) ? [{ do: "convert", at: next - 1, kind: "p" }] : [];
  return { lines: [batch([...cutting, { do: "split", at: lo, depth }, ...plain]), select(next)], what };
}

/**
 * Shift and Enter.
 * @type {(root: TreeNode, selection: Selected) => Answer}
 */
export function broken(root, selection) {
  const [lo, hi] = ends(selection);
  const leaf = [{ open: "br" }, { close: "br" }];
  const came = isContent(innermost(root, lo)) ? leaf : [{ open: "p" }, ...leaf, { close: "p" }];
  const caret = lo + came.length - (came.length > 2 ? 1 : 0);
  return { lines: [replaced(root, [{ at: lo, gone: 0, came }, ...(lo < hi ? cut(root, lo, hi) : [])]), select(caret)], what: "a break" };
}
