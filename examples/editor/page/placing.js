// Putting nodes in: what stands in text at the caret, blocks beside or between what is there.
import { cut } from "./cut.js";
import { again, areInline, ends, replaced, select } from "./edits.js";
import { endOf, innermost, isContent, isText, itemsOf, mayHold, shown, startOf } from "./tree.js";

const sizeOf = (nodes) => nodes.reduce((size, node) => size + node.size, 0);

// The nodes round an offset that have to be split, the innermost first, so that what they stand in may hold the new ones.
function parting(root, at, nodes) {
  const parted = [];
  for (let up = innermost(root, at); up; up = up.parent) {
    if (nodes.every((node) => mayHold(up.kind, node.kind))) return parted;
    if (up.kind === "internal_item") return null;
    parted.push(up);
  }
  return null;
}

// Where the last text of nodes ends, counted from where they begin.
function lastText(nodes) {
  const last = nodes.at(-1);
  if (!last || isText(last)) return sizeOf(nodes);
  if (isContent(last)) return sizeOf(nodes) - 1;
  return last.kids.length === 0 ? sizeOf(nodes) : sizeOf(nodes) - last.size + 1 + lastText(shown(last));
}

function inText(root, at, nodes) {
  const bare = isContent(innermost(root, at));
  const came = bare ? itemsOf(nodes) : [{ open: "p" }, ...itemsOf(nodes), { close: "p" }];
  return { edits: [{ at, gone: 0, came }], caret: at + sizeOf(nodes) + (bare ? 0 : 1) };
}

function besideBranch(branch, at) {
  if (branch.size === 2) return { at: startOf(branch), gone: 2 };
  if (at === endOf(branch) - 1) return { at: endOf(branch), gone: 0 };
  return at === startOf(branch) + 1 ? { at: startOf(branch), gone: 0 } : null;
}

/**
 * How nodes come to stand at an offset: the replacements, and where the caret goes, `far` behind their beginning. Blocks stand beside a
 * branch at whose end the offset is, in the place of one that is empty, else in a branch that is split. `whole` says that the branch
 * stays as it is.
 * @type {(root: TreeNode, offset: number, nodes: TreeNode[], far?: number, whole?: boolean) =>
 *   string | { edits: Replacement[], caret: number }}
 */
export function placement(root, offset, nodes, far = lastText(nodes), whole = true) {
  if (areInline(nodes)) return inText(root, offset, nodes);
  const branch = innermost(root, offset);
  const { at, gone } = (whole && isContent(branch) && besideBranch(branch, offset)) || { at: offset, gone: 0 };
  const parted = parting(root, at, nodes);
  if (!parted) return "This can't be put in here";
  const came = [...parted.map(({ kind }) => ({ close: kind })), ...itemsOf(nodes), ...parted.map(again).reverse()];
  return { edits: [{ at, gone, came }], caret: at + parted.length + far };
}

/**
 * Nodes in the place of the selection.
 * @type {(root: TreeNode, selection: Selected, nodes: TreeNode[], far?: number) => Answer}
 */
export function placed(root, selection, nodes, far = lastText(nodes)) {
  const [lo, hi] = ends(selection);
  const put = placement(root, lo, nodes, far, lo === hi);
  if (typeof put === "string") return put;
  return { lines: [replaced(root, [...put.edits, ...(lo < hi ? cut(root, lo, hi) : [])]), select(put.caret)] };
}
