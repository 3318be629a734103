// A drag of the browser's own, by the mouse. The browser learns of it from its page, and what it is told of the mouse before then comes to
// nothing: with all events sent at once the page sees no more than `dragstart`. So each move is made again until the page has seen what
// comes of it.
import { holdsSoon, until } from "./browser.mjs";

const TRIES = 3;
const PARTS = 8; // of the way; the drag begins in the first half of it

const between = (from, to, part) => [0, 1].map((k) => from[k] + ((to[k] - from[k]) * part) / PARTS);

// Presses the button and moves until the page sees that something is dragged over it.
async function begun(window, from, to) {
  await window.move(from); // as a hand does
  const before = await window.seen();
  await window.mouse("mousePressed", from);
  let part = 0;
  const isDragged = await holdsSoon(async () => {
    await window.mouse("mouseMoved", between(from, to, 1 + (part++ % (PARTS / 2))));
    const now = await window.seen();
    return now.dragstart > before.dragstart && now.dragover > before.dragover;
  });
  if (isDragged) return true;
  await window.call("Input.cancelDragging").catch(() => {}); // where there is none
  await window.mouse("mouseReleased", from);
  return false;
}

// Moves to where it shall be dropped, until the page sees it there; gives the place. At the edge of the window the browser would scroll.
async function moved(window, target, isOver) {
  const { dragover } = await window.seen(), from = window.at;
  let to = await target();
  for (let part = 1; part < PARTS / 2; part++) await window.mouse("mouseMoved", between(from, to, 2 * part));
  await until("the page sees where it would be dropped", async () => {
    to = await target();
    for (const aside of [2, 0]) await window.mouse("mouseMoved", [to[0] - aside, to[1]]);
    const now = await window.seen();
    return now.dragover > dragover && Math.abs(now.x - to[0]) < 1.5 && Math.abs(now.y - to[1]) < 1.5 && isOver(to);
  });
  return to;
}

// Lets it go. A text that goes by its drop has no `dragend`.
async function dropped(window, to, isHandle) {
  const before = await window.seen();
  await window.mouse("mouseReleased", to);
  const now = await until("the drag ends", async () => {
    const { drop, dragend } = await window.seen();
    return (dragend > before.dragend || (drop > before.drop && !isHandle)) && { drop };
  });
  return now.drop > before.drop;
}

/**
 * Drags from one place to another: `places` finds both, where the drag begins, and `target` the other one again, as it may have moved.
 * `midway` is what happens meanwhile, `isOver` whether the page shows that it would be dropped there, and `isHandle` whether it is dragged
 * by what stays where it is.
 */
export async function drag(window, { places, target, midway, isOver = () => true, isHandle = false }) {
  for (let tries = 0; tries < TRIES; tries++) {
    if (!(await begun(window, ...(await places())))) continue;
    await midway?.();
    if (await dropped(window, await moved(window, target, isOver), isHandle)) return;
    if (midway) break; // what happens meanwhile happens once
  }
  throw new Error("nothing was dropped");
}

/** Drops what another program drags, at a place. */
export async function dropFromOutside(window, html, [x, y]) {
  const items = [{ mimeType: "text/html", data: html }];
  for (const type of ["dragEnter", "dragOver", "drop"]) {
    const before = await window.seen();
    await window.call("Input.dispatchDragEvent", { type, x, y, data: { items, dragOperationsMask: 1 } });
    const name = type.toLowerCase();
    await until(`the page sees ${name}`, async () => name === "dragenter" || (await window.seen())[name] > before[name]);
  }
}
