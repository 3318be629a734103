// What changed. The program tells patches, `[at, removed, inserted]`, each over the list that those before it left, and the items that
// came. The window puts them into the nodes round them, and makes of all together one change, `{ at, gone, came }`: how many items stood at
// the place, and how many stand there now.
import { Reader, append } from "./items.js";
import { isContent, itemsOf, parse, startOf } from "./tree.js";

// The fewest whole siblings, none of them in a content branch, that cover the range.
function cover(root, from, to) {
  let parent = root, start = 0;
  for (;;) {
    let at = start;
    let first = -1, last = 0, begin = 0, end = 0;
    parent.kids.forEach((kid, k) => {
      const over = at + kid.size;
      if (from <= over && to >= at) {
        if (first < 0) [first, begin] = [k, at];
        [last, end] = [k + 1, over];
      }
      at = over;
    });
    if (first < 0) [first, last, begin, end] = [0, 0, start, start];
    const only = last - first === 1 ? parent.kids[first] : null;
    if (!only?.kids?.length || isContent(only) || from <= begin || to >= end) return { parent, first, last, from: begin, to: end };
    [parent, start] = [only, begin + 1];
  }
}

// The same one level up. What the root holds has all its partners.
function wider({ parent }) {
  const first = parent.parent.kids.indexOf(parent);
  const from = startOf(parent);
  return { parent: parent.parent, first, last: first + 1, from, to: from + parent.size };
}

// The one range that patches change: where it begins, how many items it had, and how many it has.
function together(patches) {
  let at = patches[0][0], gone = 0, came = 0;
  for (const [place, removed, inserted] of patches) {
    // what stands between the patch and the range so far is in it, too
    const more = Math.max(0, at - place) + Math.max(0, place + removed - (at + came));
    at = Math.min(at, place);
    gone += more;
    came += more + inserted - removed;
  }
  return { at, gone, came };
}

// What becomes of so many items: segments that stay, each with its place among them, and holes.
function segments(size, patches, from) {
  let list = [{ from: 0, size }];
  for (const [at, removed, inserted] of patches) {
    const [before, rest] = parted(list, at - from);
    const hole = inserted ? [{ from: null, size: inserted }] : [];
    list = [...before, ...hole, ...parted(rest, removed)[1]];
  }
  return list;
}

function parted(list, count) {
  let k = 0, left = count;
  for (; k < list.length && list[k].size <= left; k++) left -= list[k].size;
  if (left === 0) return [list.slice(0, k), list.slice(k)];
  const { from, size } = list[k];
  const second = { from: from === null ? null : from + left, size: size - left };
  return [[...list.slice(0, k), { from, size: left }], [second, ...list.slice(k + 1)]];
}

// The items of siblings after patches.
function patched(before, size, { patches, came }, from) {
  const old = new Reader(before), fresh = new Reader(came.flatMap(([, items]) => items));
  const out = [];
  let at = 0;
  for (const segment of segments(size, patches, from)) {
    if (segment.from === null) {
      append(out, fresh.take(segment.size));
    } else {
      old.take(segment.from - at);
      append(out, old.take(segment.size));
      at = segment.from + segment.size;
    }
  }
  return out;
}

// Where brackets of the siblings lost their partners, these stand round them.
function renewedIn(span, range, turn) {
  const before = itemsOf(span.parent.kids.slice(span.first, span.last));
  const fresh = parse(patched(before, span.to - span.from, turn, span.from));
  if (!fresh) return renewedIn(wider(span), range, turn);
  return { ...span, fresh, change: range };
}

/**
 * What a turn's patches make of the tree: the siblings that they touch, the nodes that come in the place of these, and the one change.
 * Nothing where no patch came.
 * @param {TreeNode} root
 * @param {Pick<Turn, "patches" | "came">} turn
 */
export function renewed(root, turn) {
  if (turn.patches.length === 0) return null;
  const range = together(turn.patches);
  return renewedIn(cover(root, range.at, range.at + range.gone), range, turn);
}

/**
 * Where an offset stands after patches. What stood in the place of one stands at its end.
 * @type {(at: number, patches: Patch[]) => number}
 */
export function moved(at, patches) {
  return patches.reduce((place, [from, removed, inserted]) => {
    if (place < from) return place;
    return place >= from + removed ? place + inserted - removed : from + inserted;
  }, at);
}
