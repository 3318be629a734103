// What is shown of a leaf. What only the program can read is named by words; its HTML is parsed where nothing of it runs or is loaded, and
// never put into the document.
import { isPicture, isSafe } from "./addresses.js";

// Attributes of pages that are shown. Others can style or run things, and are kept by the program alone.
const SHOWN = new Set(["alt", "colspan", "dir", "height", "lang", "reversed", "rowspan", "start", "title", "width"]);
const LONGEST = 120; // characters of a label

/**
 * An element with those of a node's attributes that are safe.
 * @type {(tag: string, attrs?: Attrs) => HTMLElement}
 */
export function element(tag, attrs = []) {
  const dom = document.createElement(tag);
  for (const [name, value] of attrs) {
    if (SHOWN.has(name) || (name === "href" && isSafe(value)) || (name === "src" && isPicture(value))) dom.setAttribute(name, value);
  }
  return dom;
}

function parsed(raw) {
  const template = document.createElement("template"); // its content belongs to a document that loads nothing
  template.innerHTML = raw;
  return template.content;
}

const words = (text) => text.trim().replace(/\s+/g, " ").slice(0, LONGEST);

// The name of a template, as MediaWiki writes it.
function templateOf(content) {
  const data = content.querySelector("[data-mw]")?.getAttribute("data-mw");
  try {
    const { name, parts } = JSON.parse(data);
    return name ?? parts.find((part) => part.template).template.target.wt.trim();
  } catch {
    return null;
  }
}

function pictureOf(content) {
  const held = content.querySelector("[typeof]");
  return /(^|\s)mw:(File|Image|Video|Audio)/.test(held?.getAttribute("typeof") ?? "") ? held : null;
}

// MediaWiki's pictures: the picture where its address is allowed, and what is written below it.
function pictureBox(dom, held) {
  dom.classList.add("picture");
  const media = held.querySelector("img, video, audio, [resource]");
  const address = media?.getAttribute("src") ?? "";
  const file = decodeURI(media?.getAttribute("resource") ?? address).replace(/^.*[/:]/, "");
  const image = element("img", [["src", address], ["alt", media?.getAttribute("alt") || file], ["title", file]]);
  const caption = document.createElement("span");
  caption.className = "caption";
  caption.textContent = words(held.querySelector("figcaption")?.textContent ?? "") || file;
  dom.append(...(isPicture(address) ? [image] : []), caption);
}

function label(kind, content) {
  if (kind.startsWith("trans")) return words(content.textContent) || `Template: ${templateOf(content) ?? "without a name"}`;
  const only = content.firstChild;
  if (only?.nodeType === Node.COMMENT_NODE && !only.nextSibling) return `Comment: ${words(only.data)}`;
  return words(content.textContent) || `‹${content.firstElementChild?.localName ?? "kept as it is"}›`;
}

/**
 * The box of a leaf that can be moved, copied and erased as a whole, and not edited.
 * @type {(node: TreeNode) => HTMLElement}
 */
export function box({ kind, open }) {
  const dom = document.createElement(kind.endsWith("block") ? "div" : "span");
  dom.className = `leaf ${kind}`;
  dom.contentEditable = "false";
  if (kind === "ref") return dom;
  const content = parsed(open.raw ?? "");
  const held = pictureOf(content);
  if (held) pictureBox(dom, held);
  else dom.textContent = label(kind, content);
  if (kind.startsWith("trans")) dom.title = templateOf(content) ?? "";
  return dom;
}
