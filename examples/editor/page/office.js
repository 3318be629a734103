// What office programs say by styles: Word's lists are paragraphs with a marker, and Google's bold is a weight.
import { attribute, isElement, kidsOf, tagOf, wordsOf } from "./parsed.js";

const STYLES = [
  ["b", /font-weight:\s*(bold|[6-9]00)/i],
  ["i", /font-style:\s*(italic|oblique)/i],
  ["u", /text-decoration[^;]*:[^;]*underline/i],
  ["s", /text-decoration[^;]*:[^;]*line-through/i],
  ["sub", /vertical-align:\s*sub/i],
  ["sup", /vertical-align:\s*super/i],
];

/**
 * The tags of what a style says. A link is underlined as it is, and a heading is bold.
 * @type {(dom: Node, inside: { heading: boolean, link: boolean }) => string[]}
 */
export function styledAs(dom, { heading, link }) {
  const style = attribute(dom, "style");
  if (!style) return [];
  return STYLES.filter(([tag, says]) => says.test(style) && !(tag === "b" && heading) && !(tag === "u" && link)).map(([tag]) => tag);
}

/**
 * A `b` round a whole copy that says of itself that it isn't bold.
 * @type {(dom: Node) => boolean}
 */
export const isPlain = (dom) => /^(b|strong)$/.test(tagOf(dom)) && /font-weight:\s*(normal|400)/i.test(attribute(dom, "style"));

/** @type {(dom: Node) => boolean} */
export const isMarker = (dom) => /mso-list:\s*ignore/i.test(attribute(dom, "style"));
/** @type {(dom: Node) => boolean} */
export const isBlank = (dom) => tagOf(dom) === "o:p" && wordsOf(dom).trim() === "";

function markerIn(dom) {
  for (const kid of kidsOf(dom)) {
    if (!isElement(kid)) continue;
    const found = isMarker(kid) ? kid : markerIn(kid);
    if (found) return found;
  }
  return null;
}

/**
 * The level and the kind of the list to which one of Word's paragraphs belongs.
 * @type {(dom: Node) => { level: number, kind: string } | null}
 */
export function listOf(dom) {
  const [, level] = /mso-list:[^;]*\blevel(\d+)/i.exec(attribute(dom, "style")) ?? [];
  if (!level) return null;
  const marker = markerIn(dom);
  const ordered = marker && /^\s*\(?([0-9]+|[a-z]|[ivxlc]+)[.)]/i.test(wordsOf(marker));
  return { level: Number(level), kind: ordered ? "ol" : "ul" };
}

/** Neighbours that belong to lists, as lists in one another. */
export function listed(pieces) {
  const out = [];
  let open = []; // the lists that may go on, the innermost last
  for (const piece of pieces) {
    if (!piece.list) {
      open = [];
      out.push(piece);
      continue;
    }
    const { level, kind } = piece.list;
    open = open.slice(0, level);
    if (open.length === level && open.at(-1).kind !== kind) open.pop();
    while (open.length < level) {
      const list = { kind, attrs: [], kids: [] };
      const outer = open.at(-1)?.kids;
      if (outer && outer.length === 0) outer.push({ kind: "li", attrs: [], kids: [] });
      (outer ? outer.at(-1).kids : out).push(list);
      open.push(list);
    }
    open.at(-1).kids.push({ kind: "li", attrs: [], kids: [{ ...piece, list: null }] });
  }
  return out;
}
