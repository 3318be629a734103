// Nodes as HTML and as plain text, for other programs: with marks, links and all attributes. What the page keeps whole is written as it
// stands in the page; a reference is its number.
import { isContent, isLeaf, isText, marksOf } from "./tree.js";

const SIGNS = { "&": "&amp;", "<": "&lt;", ">": "&gt;", '"': "&quot;", "\u00a0": "&nbsp;" };
const escaped = (text) => text.replace(/[&<>"\u00a0]/g, (sign) => SIGNS[sign]);
const opened = (tag, attrs = []) => `<${tag}${attrs.map(([name, value]) => ` ${name}="${escaped(value)}"`).join("")}>`;

function leaf(node) {
  if (node.kind === "br" || node.kind === "img") return opened(node.kind, node.open.attrs);
  return node.kind === "ref" ? "<sup>[*]</sup>" : node.open.raw ?? "";
}

/** @type {(nodes: TreeNode[]) => string} */
export function htmlOf(nodes) {
  let html = "", open = [];
  const close = (kept) => {
    html += open.slice(kept).reverse().map(([tag]) => `</${tag}>`).join("");
    open = open.slice(0, kept);
  };
  for (const node of nodes) {
    const marks = marksOf(node);
    let kept = 0;
    while (kept < open.length && kept < marks.length && JSON.stringify(open[kept]) === JSON.stringify(marks[kept])) kept++;
    close(kept);
    html += marks.slice(kept).map((mark) => opened(...mark)).join("");
    open = [...marks];
    if (isText(node)) html += escaped(node.text);
    else if (isLeaf(node)) html += leaf(node);
    else html += `${opened(node.kind, node.open.attrs)}${htmlOf(node.kids)}</${node.kind}>`;
  }
  close(0);
  return html;
}

/** @type {(nodes: TreeNode[]) => string} */
export function textOf(nodes) {
  return nodes.map((node) => {
    if (isText(node)) return node.text;
    if (node.kind === "br") return "\n";
    return isLeaf(node) ? "" : textOf(node.kids) + (isContent(node) ? "\n" : "");
  }).join("");
}
