// Taking a range out, and what is joined then: as replacements in the offsets of the tree.
import { isCell, replaced, select } from "./edits.js";
import { ancestors, commonOf, endOf, innerEnd, innerStart, innermost, isContent, isLeaf, isText, itemsOf, runsIn, shown,
  startOf } from "./tree.js";

const gap = (from, to, came = []) => ({ at: from, gone: to - from, came });

/**
 * Takes a range out. Where it begins in one branch and ends in another what is left of both is one branch; of what stood round the second
 * one, elements that nothing is left in go too. Cells stay, and what stands in them is emptied.
 * @type {(root: TreeNode, from: number, to: number) => Replacement[]}
 */
export function cut(root, from, to) {
  const first = innermost(root, from), last = innermost(root, to);
  if (first === last) return [gap(from, to)];
  if (first.parent === last.parent && isContent(first) && isContent(last)) return neighbours(first, last, from, to);
  const common = commonOf(first, last);
  const parted = [...ancestors(first), ...ancestors(last)].filter((node) => !ancestors(common).includes(node));
  if (!isContent(first) || !isContent(last) || parted.some(isCell)) return whole(root, 0, from, to);
  return across(common, first, last, from, to);
}

// Of two branches beside each other the brackets between go; the rest stays as it is.
function neighbours(first, last, from, to) {
  const kind = first.kind === last.kind ? [] : [gap(innerEnd(last), endOf(last), [{ close: first.kind }])];
  return [gap(from, to), ...kind];
}

function across(common, first, last, from, to) {
  const edits = [gap(from, innerEnd(first), itemsWithin(runsIn(last, to, innerEnd(last))))];
  let begin = first, end = last;
  for (; begin.parent !== common; begin = begin.parent) edits.push(gap(endOf(begin), innerEnd(begin.parent)));
  while (end.parent !== common && end.parent.kids.at(-1) === end) end = end.parent; // nothing stays behind it
  const emptied = end;
  for (; end.parent !== common; end = end.parent) edits.push(gap(innerStart(end.parent), startOf(end)));
  edits.push(gap(endOf(begin), startOf(end)), gap(startOf(emptied), endOf(emptied)));
  return edits;
}

// What stands as a whole in the range; brackets whose partners don't stay.
function whole(node, start, from, to) {
  const edits = [];
  let at = start + (node.parent ? 1 : 0);
  for (const kid of shown(node)) {
    const end = at + kid.size;
    if (from <= at && end <= to) edits.push(gap(at, end));
    else if (isText(kid) && from < end && at < to) edits.push(gap(Math.max(from, at), Math.min(to, end)));
    else if (!isText(kid) && !isLeaf(kid) && from < end && at < to) edits.push(...whole(kid, at, from, to));
    at = end;
  }
  return edits;
}

function itemsWithin(runs) {
  return itemsOf(runs.map(({ kid, from, to }) =>
    (isText(kid) && to - from < kid.size ? { ...kid, text: [...kid.text].slice(kid.size - (to - from)).join("") } : kid)));
}

/**
 * At the edge of a branch: the one beside it that way is joined with it, or the leaf there goes.
 * @type {(root: TreeNode, branch: TreeNode, dir: string) => Answer}
 */
export function joined(root, branch, dir) {
  const beside = neighbour(branch, dir);
  if (!beside) return null;
  if (isLeaf(beside)) return { lines: [replaced(root, [gap(startOf(beside), endOf(beside))])], what: "erasing" };
  const [before, after] = dir === "back" ? [beside, branch] : [branch, beside];
  if (!isContent(branch)) return emptied(root, branch, beside, dir);
  const at = innerEnd(before);
  return { lines: [replaced(root, cut(root, at, innerStart(after))), select(at)], what: "joining two paragraphs" };
}

// An empty element without a paragraph goes as a whole; a cell stays.
function emptied(root, node, beside, dir) {
  if (!node.parent || isCell(node)) return null;
  const outer = hull(node);
  const [from, to] = [startOf(outer), endOf(outer)];
  const caret = dir === "back" ? innerEnd(beside) : innerStart(beside) - (to - from);
  return { lines: [replaced(root, [gap(from, to)]), select(caret)], what: "erasing" };
}

// The branch or block leaf next to a branch that way; none across the border of a cell.
function neighbour(branch, dir) {
  const step = dir === "back" ? -1 : 1;
  for (let up = branch; up.parent && !isCell(up); up = up.parent) {
    const kids = shown(up.parent);
    const next = kids[kids.indexOf(up) + step];
    if (next) return inward(next, dir);
  }
  return null;
}

function inward(node, dir) {
  if (isContent(node) || isLeaf(node)) return node;
  const next = shown(node).at(dir === "back" ? -1 : 0);
  return !next || node.kind === "table" ? null : inward(next, dir);
}

// The outermost element that holds nothing but the node.
function hull(node) {
  let up = node;
  while (up.parent?.parent && shown(up.parent).length === 1 && !isCell(up.parent)) up = up.parent;
  return up;
}
