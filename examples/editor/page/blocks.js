// Headings and lists.
import { again, batch, before, ends, isList, listItem, replaced } from "./edits.js";
import { around, branchesIn, commonOf, endOf, innerEnd, innerStart, innermost, isContent, shown, startOf } from "./tree.js";

/**
 * The branches of the selection become headings, or paragraphs.
 * @type {(root: TreeNode, selection: Selected, kind: string) => Answer}
 */
export function converted(root, selection, kind) {
  const [lo, hi] = ends(selection);
  const branches = touched(root, lo, hi).filter((branch) => branch.kind !== kind);
  if (branches.length === 0) return null;
  const lines = branches.map((branch) => ({ do: "convert", at: startOf(branch), kind }));
  return { lines: [batch(lines)], what: "another kind of paragraph" };
}

const touched = (root, lo, hi) => (lo === hi ? [innermost(root, lo)].filter(isContent) : branchesIn(root, lo, hi));

/**
 * The selection's siblings become a list of this kind, or a list becomes one of the other kind, or paragraphs.
 * @type {(root: TreeNode, selection: Selected, kind: string) => Answer}
 */
export function listed(root, selection, kind) {
  const [lo, hi] = ends(selection);
  const common = commonOf(innermost(root, lo), innermost(root, hi));
  const list = around(common, isList);
  if (list?.kind === kind) return lifted(root, list, lo, hi);
  if (list) {
    const lines = [{ do: "wrap", from: innerStart(list), to: innerEnd(list), unwrap_outer: [list.kind], wrap_outer: [{ kind }] }];
    return { lines, what: "another kind of list" };
  }
  const parent = isContent(common) ? common.parent : common;
  const siblings = shown(parent).filter((kid) => startOf(kid) < Math.max(hi, lo + 1) && endOf(kid) > lo);
  if (siblings.length === 0 || !siblings.every(isContent)) return "Only paragraphs and headings beside each other can become a list";
  const [from, to] = [startOf(siblings[0]), endOf(siblings.at(-1))];
  return { lines: [{ do: "wrap", from, to, wrap_outer: [{ kind }], wrap_each: [{ kind: "li" }] }], what: "a list" };
}

// Items of a list become what they hold; what stands before and after them stays a list.
function lifted(root, list, lo, hi) {
  const kids = list.kids.filter((kid) => startOf(kid) < Math.max(hi, lo + 1) && endOf(kid) > lo);
  const [first, last] = [kids[0], kids.at(-1)];
  const edits = kids.filter((kid) => kid.kind === "li").flatMap((item) => [
    { at: startOf(item), gone: 1, came: [] },
    ...(item.kids.length ? [] : [{ at: startOf(item) + 1, gone: 0, came: [{ open: "p" }, { close: "p" }] }]),
    { at: endOf(item) - 1, gone: 1, came: [] },
  ]);
  const isFirst = list.kids[0] === first, isLast = list.kids.at(-1) === last;
  edits.unshift(isFirst ? { at: startOf(list), gone: 1, came: [] } : { at: startOf(first), gone: 0, came: [{ close: list.kind }] });
  edits.push(isLast ? { at: endOf(list) - 1, gone: 1, came: [] } : { at: endOf(last), gone: 0, came: [again(list)] });
  return { lines: [replaced(root, edits)], what: "the end of a list" };
}

/**
 * Tab, and Tab with Shift, in a list.
 * @type {(root: TreeNode, selection: Selected) => Answer}
 */
export function indented(root, selection) {
  const item = listItem(innermost(root, ends(selection)[0]));
  if (!item) return null;
  if (!before(item).some((node) => node.kind === "li")) return "There is no item before this one";
  return { lines: [{ do: "indent", at: startOf(item) }], what: "an item that goes deeper" };
}

/** @type {(root: TreeNode, selection: Selected) => Answer} */
export function outdented(root, selection) {
  const [lo, hi] = ends(selection);
  const item = listItem(innermost(root, lo));
  if (!item) return null;
  const outer = listItem(item.parent);
  if (!outer) return lifted(root, item.parent, lo, hi);
  return { lines: [{ do: "outdent", at: startOf(item) }], what: "an item that comes out" };
}

/**
 * The kind of the selection's first branch and of the innermost list round it, for the toolbar.
 * @type {(root: TreeNode, selection: Selected) => { branch: string | null, list: string | null }}
 */
export function kindsAt(root, selection) {
  const node = innermost(root, ends(selection)[0]);
  return { branch: isContent(node) ? node.kind : null, list: around(node, isList)?.kind ?? null };
}
