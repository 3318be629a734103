// HTML of other programs, parsed where none of it runs and nothing is loaded, and read by ways that no element of it can take over: an
// `<img name=childNodes>` in a form is what `form.childNodes` gives.

const getter = (type, name) => {
  const { get } = Object.getOwnPropertyDescriptor(type.prototype, name);
  return (node) => get.call(node);
};
const firstOf = getter(Node, "firstChild"), nextOf = getter(Node, "nextSibling"), typeOf = getter(Node, "nodeType");

export const textOf = getter(CharacterData, "data");
export const wordsOf = getter(Node, "textContent");
export const tagOf = getter(Element, "localName");
export const isText = (node) => typeOf(node) === Node.TEXT_NODE;
export const isElement = (node) => typeOf(node) === Node.ELEMENT_NODE;
export const attribute = (node, name) => Element.prototype.getAttribute.call(node, name) ?? "";

export function* kidsOf(node) {
  for (let kid = firstOf(node); kid; kid = nextOf(kid)) yield kid;
}

/** A browser's parser ends nesting at some five hundred levels, so that what walks the nodes may call itself. */
export function parsed(html) {
  const template = document.createElement("template");
  template.innerHTML = html;
  return template.content;
}
