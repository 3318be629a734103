// Pictures: a new one, by its address. It stands in text, as any letter does.
import { isPicture, withScheme } from "./addresses.js";
import { named } from "./edits.js";
import { placed } from "./placing.js";
import { parse } from "./tree.js";

/** @type {(root: TreeNode, selection: Selected, address: string, words: string) => Answer} */
export function pictured(root, selection, address, words) {
  if (!address) return null;
  const src = /^data:/i.test(address) ? address : withScheme(address);
  if (!isPicture(src)) return "A picture's address begins with https:, http: or data:image/";
  const attrs = [["src", src], ["alt", words]];
  return named(placed(root, selection, parse([{ open: "img", attrs }, { close: "img" }])), "a picture");
}
