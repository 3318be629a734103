// Copy, cut, paste and drag. What is taken along is nodes of the page: as items for this page itself, where all of it comes back as it was,
// and as HTML and text for others.
import { cut } from "./cut.js";
import { ends, named, replaced, select } from "./edits.js";
import { nodesOf, nodesOfText } from "./foreign.js";
import { sizeOf } from "./items.js";
import { placed, placement } from "./placing.js";
import { commonOf, innermost, isContent, isLeaf, isText, itemsOf, mayHold, parse, shown, startOf } from "./tree.js";
import { htmlOf, textOf } from "./written.js";

const OWN = "application/x-vemodel-items";

// The nodes of a range: of those in which it begins or ends, the part that it covers.
function within(nodes, start, from, to) {
  const out = [];
  let at = start;
  for (const node of nodes) {
    const end = at + node.size, isIn = from < end && at < to;
    if (from <= at && end <= to) out.push(node);
    else if (isText(node) && isIn) out.push({ ...node, text: [...node.text].slice(Math.max(0, from - at), to - at).join("") });
    else if (!isLeaf(node) && isIn) out.push({ ...node, kids: within(shown(node), at + 1, from, to) });
    at = end;
  }
  return out;
}

/**
 * What the selection covers, as nodes that may stand by themselves.
 * @type {(root: TreeNode, selection: Selected) => TreeNode[]}
 */
export function taken(root, selection) {
  const [lo, hi] = ends(selection);
  let common = commonOf(innermost(root, lo), innermost(root, hi));
  while (!isContent(common) && !mayHold(common.kind, "p")) common = common.parent;
  return within(shown(common), common.parent ? startOf(common) + 1 : 0, lo, hi);
}

const written = (data, nodes, page) => {
  data.setData(OWN, JSON.stringify({ page, items: itemsOf(nodes) }));
  data.setData("text/html", htmlOf(nodes));
  data.setData("text/plain", textOf(nodes).replace(/\n$/, ""));
};

// What was brought, as nodes; nothing where there is nothing. Items count in the page that they are from alone.
function brought(data, page) {
  const own = data.getData(OWN), html = data.getData("text/html");
  if (own) {
    const { page: from, items } = JSON.parse(own);
    if (from === page) return parse(items);
  }
  return html ? nodesOf(html) : nodesOfText(data.getData("text/plain"));
}

const grownBy = (edits) => edits.reduce((sum, { gone, came }) => sum + came.reduce((size, item) => size + sizeOf(item), 0) - gone, 0);

const takenOut = ({ root }, from, to) => ({ lines: [replaced(root, cut(root, from, to)), select(from)], what: "a cut" });

// What was dragged goes from where it was, and comes to where it is dropped.
function dropped({ root }, at, ...selection) {
  const [lo, hi] = ends(selection);
  if (at >= lo && at <= hi) return null;
  const put = placement(root, at, parse(itemsOf(taken(root, selection)))); // anew, as a part of a node has another size
  if (typeof put === "string") return put;
  const gone = cut(root, lo, hi);
  if (gone.some((edit) => edit.at < at && at < edit.at + edit.gone)) return "This can't be dropped so near to where it was";
  const caret = put.caret + grownBy(gone.filter((edit) => edit.at < at));
  return { lines: [replaced(root, [...put.edits, ...gone]), select(caret)], what: "what was dragged" };
}

/**
 * Has the page's copy, cut, paste and drag go by nodes.
 * @param {HTMLElement} host
 * @param {import("./editor.js").Editor} editor
 */
export function listenToClipboard(host, editor) {
  const copy = (data) => written(data, taken(editor.root, editor.selection), editor.page);
  const paste = (data) => {
    const nodes = brought(data, editor.page);
    if (nodes?.length) editor.act(({ root, selection }) => named(placed(root, selection, nodes), "a paste"));
  };

  for (const what of ["copy", "cut"]) {
    host.addEventListener(what, (event) => {
      const [lo, hi] = ends(editor.selection);
      if (lo === hi) return;
      event.preventDefault();
      copy(event.clipboardData);
      if (what === "cut") editor.act(takenOut, lo, hi);
    });
  }
  host.addEventListener("paste", (event) => {
    event.preventDefault();
    paste(event.clipboardData);
  });

  let isOurs = false; // whether what is dragged is the selection here; where that goes by the drop there is no `dragend` of it
  host.addEventListener("dragstart", (event) => {
    isOurs = true;
    copy(event.dataTransfer);
    event.dataTransfer.effectAllowed = "copyMove";
  });
  host.addEventListener("dragend", () => (isOurs = false));
  host.addEventListener("dragover", (event) => event.preventDefault());
  host.addEventListener("drop", (event) => {
    event.preventDefault();
    const at = editor.places.offsetAt(event.clientX, event.clientY), isMoved = isOurs && !event.ctrlKey;
    isOurs = false;
    if (at === null) return;
    if (isMoved) return editor.act(dropped, at, ...editor.selection);
    editor.place([at, at]);
    paste(event.dataTransfer);
  });
}
