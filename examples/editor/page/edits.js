// What the functions of text.js, marks.js, blocks.js and their like are made of. Each of those takes the tree and the selection, and gives
// an edit, or nothing, or a text that says why there is none. An edit is `{ lines, kind, what }`: its commands; for typing and erasing
// their kind, so that a burst is undone as one; and its name, for whoever is told that it was dropped.
import { around, leftOf, marksOf } from "./tree.js";

/** @type {(selection: Selected) => Selected} */
export const ends = ([anchor, focus]) => [Math.min(anchor, focus), Math.max(anchor, focus)];
/** @type {(anchor: number, focus?: number) => Line} */
export const select = (anchor, focus = anchor) => ({ do: "select", anchor, focus });
/** @type {(cmds: Line[]) => Line} */
export const batch = (cmds) => (cmds.length === 1 ? cmds[0] : { do: "batch", cmds });

/** @type {(node: TreeNode) => boolean} */
export const isItem = (node) => ["li", "dt", "dd"].includes(node.kind);
/** @type {(node: TreeNode) => boolean} */
export const isList = (node) => node.kind === "ul" || node.kind === "ol";
/** @type {(node: TreeNode) => boolean} */
export const isCell = (node) => ["td", "th", "caption"].includes(node.kind);
/** @type {(node: TreeNode) => TreeNode | null} */
export const listItem = (node) => around(node, (up) => up.kind === "li");

export const after = (node) => node.parent.kids.slice(node.parent.kids.indexOf(node) + 1);
/** @type {(node: TreeNode) => TreeNode[]} */
export const before = (node) => node.parent.kids.slice(0, node.parent.kids.indexOf(node));

/**
 * Another opening of the kind and the attributes of a node, as where it is split.
 * @type {(node: TreeNode) => Bracket}
 */
export function again(node) {
  const attrs = (node.open.attrs ?? []).filter(([name]) => !["id", "about", "typeof"].includes(name));
  return attrs.length ? { open: node.kind, attrs } : { open: node.kind };
}

/**
 * Replacements, each `{ at, gone, came }` in the offsets of the tree, as one `apply`. What `data` shows is put in as it is shown.
 * @type {(root: TreeNode, replacements: Replacement[]) => Line}
 */
export function replaced(root, replacements) {
  const ops = [];
  let done = 0;
  for (const { at, gone, came } of replacements.filter((it) => it.gone || it.came.length).sort((a, b) => a.at - b.at)) {
    const last = ops.at(-1);
    if (last?.insert && at === done) {
      last.remove += gone;
      last.insert = [...last.insert, ...came];
    } else {
      if (at > done) ops.push({ retain: at - done });
      ops.push({ remove: gone, insert: came });
    }
    done = at + gone;
  }
  if (root.size > done) ops.push({ retain: root.size - done });
  return { do: "apply", exact: true, ops };
}

/**
 * A text with the marks of what stands on its left, but for those that are to be put on it or taken off.
 * @type {(branch: TreeNode, at: number, text: string, wanted: Map<string, boolean>) => Item}
 */
export function dressed(branch, at, text, wanted) {
  const left = leftOf(branch, at);
  const marks = (left ? marksOf(left) : []).filter(([tag]) => wanted.get(tag) !== false);
  for (const [tag, on] of wanted) if (on && !marks.some((mark) => mark[0] === tag)) marks.push([tag, []]);
  return marks.length ? [text, marks] : text;
}

/** Whether nodes are such as stand in text. */
/**
 * An edit with its name; what says that there is none stays.
 * @type {(edit: Answer, what: string) => Answer}
 */
export const named = (edit, what) => (edit && typeof edit !== "string" ? { ...edit, what } : edit);

const INLINE = new Set(["text", "br", "img", "ref", "trans_inline", "alien_inline"]);
/** @type {(nodes: TreeNode[]) => boolean} */
export const areInline = (nodes) => nodes.every((node) => INLINE.has(node.kind));
