// Which node of the tree a DOM node shows, and which DOM node shows a node.

export class Pairs {
  #nodes = new WeakMap();
  #doms = new WeakMap();

  bind(node, dom) {
    this.#nodes.set(dom, node);
    this.#doms.set(node, dom);
    return dom;
  }

  nodeOf(dom) {
    return this.#nodes.get(dom);
  }

  domOf(node) {
    return this.#doms.get(node);
  }
}
