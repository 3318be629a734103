// Input methods, as phones and those of East Asia have. They write into the document by themselves, over words that stood there too. When
// one is done what its branch shows is compared with the tree: the difference is taken out of the document, and typed as any other text.
import { ends, select } from "./edits.js";
import { commonOf, innerStart, innermost, isContent, isText } from "./tree.js";
import { scalars } from "./scalars.js";

const LEAF = "\ufffc"; // stands for a leaf, on both sides

const signsOf = (branch) => branch.kids.map((kid) => (isText(kid) ? kid.text.replace(/\n/g, " ") : LEAF.repeat(2))).join("");

function shownIn(dom, places) {
  if (dom.nodeType === Node.TEXT_NODE) return dom.data.replace(/\n/g, " ");
  const leaf = places.leafAt(dom);
  if (leaf) return LEAF.repeat(2);
  return [...dom.childNodes].map((kid) => shownIn(kid, places)).join("");
}

// The least replacement, in characters: what stands at `from` to `to` of the one becomes `text`. Where letters are doubled it is the one
// before the caret.
function difference(before, after, caret) {
  const [old, now] = [[...before], [...after]];
  const most = Math.min(old.length, now.length);
  const room = Math.max(0, Math.min(most, caret - Math.max(0, now.length - old.length)));
  let head = 0, tail = 0;
  while (head < room && old[head] === now[head]) head++;
  while (tail < most - head && old.at(-1 - tail) === now.at(-1 - tail)) tail++;
  return { from: head, to: old.length - tail, text: now.slice(head, now.length - tail).join("") };
}

/**
 * @param {HTMLElement} host
 * @param {import("./editor.js").Editor} editor
 */
export function listenToInputMethods(host, editor) {
  let branch = null; // the branch in which it writes, where it is one

  host.addEventListener("compositionstart", () => {
    const [lo, hi] = ends(editor.selection).map((at) => innermost(editor.root, at));
    branch = lo === hi && isContent(lo) ? lo : null;
    editor.hold();
  });

  host.addEventListener("compositionend", ({ data }) => {
    const change = branch && readBranch();
    const [lo, hi] = ends(editor.selection);
    editor.view.redraw(branch ?? commonOf(innermost(editor.root, lo), innermost(editor.root, hi)));
    editor.places.select(...editor.selection);
    if (change) editor.act((_, from, to) => written(change, from, to), change.from, change.to);
    else if (data) editor.type(data);
    editor.release();
  });

  // What the branch shows that isn't in the tree, and how far from its beginning the caret stands.
  function readBranch() {
    const dom = editor.view.domOf(branch);
    const { focusNode, focusOffset } = document.getSelection();
    const range = document.createRange();
    range.setStart(dom, 0);
    if (dom.contains(focusNode)) range.setEnd(focusNode, focusOffset);
    const caret = scalars(range.toString());
    const { from, to, text } = difference(signsOf(branch), shownIn(dom, editor.places), caret);
    const start = innerStart(branch);
    return { from: start + from, to: start + to, text, caret: caret - from };
  }
}

function written({ text, caret }, from, to) {
  if (!text && from === to) return null;
  const change = text ? [select(from, to), { do: "type", text }] : [{ do: "remove", from, to }];
  return { lines: [...change, select(from + caret)], kind: "type", what: `typing “${text}”`, text };
}
