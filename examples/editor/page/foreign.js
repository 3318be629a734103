// What another program put on the clipboard, as nodes that the page may hold. Of what is known a few attributes are kept; all else is what
// stands in it.
import { isPicture, isSafe } from "./addresses.js";
import { isBlank, isMarker, isPlain, listOf, listed, styledAs } from "./office.js";
import { attribute, isElement, isText, kidsOf, parsed, tagOf, textOf } from "./parsed.js";
import { CONTENT, mayHold, parse } from "./tree.js";

const MARKS = new Set(["a", "abbr", "b", "bdi", "big", "cite", "code", "del", "em", "i", "ins", "kbd", "mark", "q", "s", "samp", "small",
  "strong", "sub", "sup", "u", "var"]);
const BLOCKS = new Set([...CONTENT, "ul", "ol", "li", "dl", "dt", "dd", "blockquote", "table", "caption", "thead", "tbody", "tfoot", "tr",
  "td", "th"]);
// Elements that the page doesn't have, and which yet begin a line of their own.
const LINES = new Set(["div", "section", "article", "header", "footer", "main", "aside", "figure", "figcaption", "form", "fieldset",
  "address", "nav", "center", "details", "summary"]);
const GONE = new Set(["script", "style", "template", "noscript", "iframe", "object", "embed", "svg", "math", "title", "meta", "link", "base",
  "head", "input", "textarea", "select", "button", "colgroup", "audio", "video", "canvas"]);
const KEPT = { a: ["href", "rel", "title"], img: ["src", "alt", "width", "height"], td: ["colspan", "rowspan"], th: ["colspan", "rowspan"],
  ol: ["start"] };
const DEEPEST = 40; // blocks in one another
const MOST_MARKS = 20;

const attrsOf = (dom, tag) => (KEPT[tag] ?? []).map((name) => [name, wellFormed(attribute(dom, name))]).filter(([, value]) => value);
const wellFormed = (text) => text.replace(/[\0\r]/g, "").toWellFormed();

// The marks of what stands in an element.
function marksIn(dom, tag, way) {
  const own = MARKS.has(tag) && !isPlain(dom) && (tag !== "a" || isSafe(attribute(dom, "href"))) ? [[tag, attrsOf(dom, tag)]] : [];
  const link = way.marks.some(([name]) => name === "a") || tag === "a";
  const styled = styledAs(dom, { heading: way.heading, link }).map((name) => [name, []]);
  const fresh = [...own, ...styled].filter(([name], k, all) => (name !== "a" || all[k][1].some(([it]) => it === "href"))
    && !way.marks.some((mark) => mark[0] === name) && all.findIndex((mark) => mark[0] === name) === k);
  return [...way.marks, ...fresh].slice(0, MOST_MARKS);
}

// Runs, breaks, pictures and blocks, as they come. `way` says what stands round them.
function pieces(parent, way, out = []) {
  for (const dom of kidsOf(parent)) {
    if (isText(dom)) {
      const text = wellFormed(textOf(dom));
      out.push({ kind: "text", text: way.pre ? text : text.replace(/[\t\n\f ]+/g, " "), marks: way.marks });
    } else if (isElement(dom) && !GONE.has(tagOf(dom)) && !isMarker(dom) && !isBlank(dom)) {
      piece(dom, tagOf(dom), way, out);
    }
  }
  return out;
}

function piece(dom, tag, way, out) {
  if (tag === "br") return out.push({ kind: "br", attrs: [], marks: way.marks });
  if (tag === "img") {
    const attrs = attrsOf(dom, tag);
    if (attrs.some(([name, value]) => name === "src" && isPicture(value))) out.push({ kind: "img", attrs, marks: way.marks });
    return;
  }
  const inner = { ...way, marks: marksIn(dom, tag, way), heading: way.heading || /^h\d$/.test(tag), pre: way.pre || tag === "pre" };
  if (LINES.has(tag)) return out.push(...flow(pieces(dom, inner)));
  if (!BLOCKS.has(tag) || way.depth > DEEPEST) return pieces(dom, inner, out);
  const kids = pieces(dom, { ...inner, depth: way.depth + 1 });
  return out.push(...settled(tag, attrsOf(dom, tag), kids, listOf(dom), inner.pre));
}

const isBlock = ({ kind }) => BLOCKS.has(kind);

// A block round what stands in it, as far as it may hold that.
function settled(kind, attrs, kids, list, pre) {
  if (CONTENT.has(kind)) return kids.some(isBlock) ? flow(kids) : [{ kind, attrs, kids: pre ? kids : trimmed(kids), list }];
  if (mayHold(kind, "p")) return [{ kind, attrs, kids: flow(kids) }];
  // a list without items, a row without cells and a table without rows show nothing
  const held = kind === "ul" || kind === "ol" ? itemsIn(kids) : kids.filter((kid) => mayHold(kind, kid.kind));
  return held.length ? [{ kind, attrs, kids: held }] : [];
}

// What stands in a list and is no item: a list belongs to the item before it, and all else is an item of its own.
function itemsIn(kids) {
  const items = [];
  for (const kid of flow(kids)) {
    if (kid.kind === "li") items.push(kid);
    else if (/^[uo]l$/.test(kid.kind) && items.length) items.at(-1).kids.push(kid);
    else items.push({ kind: "li", attrs: [], kids: [kid] });
  }
  return items;
}

// Runs between blocks become paragraphs; white text there says nothing.
function flow(kids) {
  const out = [];
  let run = [];
  const end = () => {
    const kept = trimmed(run);
    if (kept.some(({ kind }) => kind !== "br")) out.push({ kind: "p", attrs: [], kids: kept });
    run = [];
  };
  for (const kid of kids) {
    if (isBlock(kid)) {
      end();
      out.push(kid);
    } else {
      run.push(kid);
    }
  }
  end();
  return listed(out);
}

// White text shows as one space between words, and not at all at the ends.
function trimmed(run, ends = true) {
  const out = [];
  let white = ends;
  for (const kid of run) {
    const text = kid.kind === "text" && white ? kid.text.replace(/^ +/, "") : kid.text;
    if (text === "") continue;
    out.push(kid.kind === "text" ? { ...kid, text } : kid);
    white = kid.kind === "br" || (kid.kind === "text" && text.endsWith(" "));
  }
  const last = out.at(-1);
  if (ends && last?.kind === "text") last.text = last.text.replace(/ +$/, "");
  return out.filter(({ text }) => text !== "");
}

function items(kids, out = []) {
  for (const { kind, text, marks = [], attrs = [], kids: inner = [] } of kids) {
    if (kind === "text") {
      out.push(marks.length ? [text, marks] : text);
      continue;
    }
    out.push({ open: kind, ...(attrs.length && { attrs }), ...(marks.length && { marks }) });
    items(inner, out);
    out.push({ close: kind });
  }
  return out;
}

// What the page's root may hold: a row or an item that stands alone is what stands in it.
function lone(kids) {
  return kids.flatMap((kid) => {
    if (kid.kind === "li") return [{ kind: "ul", attrs: [], kids: [kid] }];
    return isBlock(kid) && !mayHold("root", kid.kind) ? lone(kid.kids) : [kid];
  });
}

/**
 * The nodes of HTML: runs, breaks and pictures alone, or blocks. Nothing is left of what shows nothing.
 * @type {(html: string) => TreeNode[] | null}
 */
export function nodesOf(html) {
  const kids = pieces(parsed(html), { marks: [], heading: false, pre: false, depth: 0 });
  const blocks = kids.some(isBlock) ? lone(flow(kids)) : [];
  // one paragraph alone is the text in it
  if (blocks.length === 1 && blocks[0].kind === "p" && !blocks[0].list) return parse(items(blocks[0].kids));
  return parse(items(blocks.length ? blocks : trimmed(kids, false)));
}

/**
 * The nodes of plain text: a line is text, and more are paragraphs.
 * @type {(text: string) => TreeNode[] | null}
 */
export function nodesOfText(text) {
  const lines = wellFormed(text.replace(/\r\n?/g, "\n")).split("\n");
  if (lines.length === 1) return parse(lines.filter(Boolean));
  return parse(items(lines.filter(Boolean).map((line) => ({ kind: "p", kids: [{ kind: "text", text: line }] }))));
}
