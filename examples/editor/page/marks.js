// Marks and links.
import { withScheme } from "./addresses.js";
import { batch, ends, select } from "./edits.js";
import { branchesIn, innerEnd, innerStart, innermost, isContent, leftOf, marksOf, runsIn } from "./tree.js";
import { scalars } from "./scalars.js";

/**
 * Which marks the whole selection has, and where it is collapsed, which ones typing would take.
 * @type {(root: TreeNode, selection: Selected) => Mark[]}
 */
export function marksAt(root, selection) {
  const [lo, hi] = ends(selection);
  if (lo === hi) {
    const left = leftOf(innermost(root, lo), lo);
    return left && isContent(innermost(root, lo)) ? marksOf(left) : [];
  }
  const runs = branchesIn(root, lo, hi).flatMap((branch) => runsIn(branch, lo, hi));
  if (runs.length === 0) return [];
  return marksOf(runs[0].kid).filter((mark) => runs.every(({ kid }) => marksOf(kid).some(([tag]) => tag === mark[0])));
}

/**
 * Puts a mark on the selection, or takes it and those that look the same off where all of the selection has one. The items are new ones
 * then, so the selection has to be put on them again.
 * @type {(root: TreeNode, selection: Selected, tags: string[]) => Answer}
 */
export function toggled(root, selection, tags) {
  const [lo, hi] = ends(selection);
  const has = marksAt(root, selection).some(([tag]) => tags.includes(tag));
  const lines = has ? unmarked(root, lo, hi, tags) : [{ do: "mark", from: lo, to: hi, tag: tags[0] }];
  return { lines: [batch(lines), select(...selection)], what: "a mark" };
}

function unmarked(root, from, to, tags) {
  const found = new Map();
  for (const { kid } of branchesIn(root, from, to).flatMap((branch) => runsIn(branch, from, to))) {
    for (const mark of marksOf(kid)) if (tags.includes(mark[0])) found.set(JSON.stringify(mark), mark);
  }
  return [...found.values()].map(([tag, attrs]) => ({ do: "unmark", from, to, tag, attrs }));
}

/**
 * The link that the selection stands in or on: its address, and how far it reaches.
 * @type {(root: TreeNode, selection: Selected) => { from: number, to: number, href: string }}
 */
export function linkAt(root, selection) {
  const [lo, hi] = ends(selection);
  const mark = marksAt(root, selection).find(([tag]) => tag === "a");
  if (!mark) return { from: lo, to: hi, href: "" };
  const href = mark[1].find(([name]) => name === "href")?.[1] ?? "";
  if (lo < hi) return { from: lo, to: hi, href };
  const branch = innermost(root, lo);
  let at = innerStart(branch), from = at, to = innerEnd(branch);
  for (const kid of branch.kids) {
    if (!marksOf(kid).some((other) => JSON.stringify(other) === JSON.stringify(mark))) {
      if (at >= lo) {
        to = at;
        break;
      }
      from = at + kid.size;
    }
    at += kid.size;
  }
  return { from, to, href };
}

/**
 * Sets a link where the selection is, or takes it off where the address is empty.
 * @type {(root: TreeNode, selection: Selected, address: string) => Answer}
 */
export function linked(root, selection, address) {
  const { from, to } = linkAt(root, selection);
  const href = address && withScheme(address);
  const mark = { do: "mark", tag: "a", attrs: [["href", href]] };
  if (from === to) {
    if (!href) return null;
    const size = scalars(address);
    const written = batch([{ do: "text", at: from, text: address }, { ...mark, from, to: from + size }]);
    return { lines: [written, select(from + size)], what: "a link" };
  }
  const lines = [...unmarked(root, from, to, ["a"]), ...(href ? [{ ...mark, from, to }] : [])];
  return lines.length ? { lines: [batch(lines), select(...selection)], what: "a link" } : null;
}
