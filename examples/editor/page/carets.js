// Where the others are: a caret with a name, and what they selected, tinted. They lie over the page, and aren't part of it.
import { moved } from "./changed.js";
import { nameOf } from "./people.js";

export class Carets {
  #layer;
  #places;
  #others = new Map();

  constructor(layer, places) {
    this.#layer = layer;
    this.#places = places;
    addEventListener("resize", () => this.show());
  }

  /** Where another window says its selection is, on a list of so many committed entries. */
  heard({ site, seen, caret }) {
    const other = this.#others.get(site) ?? { doms: [], highlight: tint(site), caret };
    this.#others.set(site, { ...other, told: { seen, caret } });
  }

  left(site) {
    const other = this.#others.get(site);
    other?.doms.forEach((dom) => dom.remove());
    other?.highlight.clear();
    this.#others.delete(site);
  }

  get sites() {
    return [...this.#others.keys()];
  }

  /** After changes here the selections move along. What a window said of itself counts where it speaks of the list that is shown here. */
  moved(patches, seen) {
    for (const other of this.#others.values()) {
      if (other.told.seen === seen) other.caret = other.told.caret;
      else other.caret = other.caret.map((at) => moved(at, patches));
    }
    this.show();
  }

  // What isn't drawn yet has no place on the screen.
  show() {
    const origin = this.#layer.getBoundingClientRect();
    for (const [site, other] of this.#others) {
      other.doms.forEach((dom) => dom.remove());
      other.highlight.clear();
      const [from, to] = [Math.min(...other.caret), Math.max(...other.caret)];
      const drawn = [from, to].every((at) => this.#places.isDrawn(at));
      if (from !== to && drawn) other.highlight.add(this.#places.range(from, to));
      const flags = this.#places.isDrawn(other.caret[1]) ? [put(flag(site), this.#places.box(other.caret[1]), origin)] : [];
      const held = from === to ? [] : this.#places.leavesIn(from, to).map((dom) => put(cover(site), dom.getBoundingClientRect(), origin));
      other.doms = [...held, ...flags];
      this.#layer.append(...other.doms);
    }
  }
}

function put(dom, box, origin) {
  dom.style.left = `${box.left - origin.left}px`;
  dom.style.top = `${box.top - origin.top}px`;
  dom.style.height = `${box.height}px`;
  if (dom.className === "held") dom.style.width = `${box.width}px`;
  return dom;
}

function mark(site, className) {
  const dom = document.createElement("div");
  dom.className = className;
  dom.dataset.site = site;
  return dom;
}

function flag(site) {
  const dom = mark(site, "caret");
  dom.append(Object.assign(document.createElement("span"), { textContent: nameOf(site) }));
  return dom;
}

// A picture, or another box, that is selected.
const cover = (site) => mark(site, "held");

function tint(site) {
  const highlight = new Highlight();
  CSS.highlights.set(`site-${site}`, highlight);
  return highlight;
}
