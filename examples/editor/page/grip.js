// The handle beside the block under the mouse: it is dragged with its block, and a line shows where that would come to stand.
import { blockAt, fitsBeside, movedBeside } from "./moving.js";
import { isIn } from "./tree.js";

/**
 * @param {HTMLElement} main
 * @param {HTMLElement} host
 * @param {import("./editor.js").Editor} editor
 */
export function listenToGrip(main, host, editor) {
  const [grip, line] = ["#grip", "#line"].map((selector) => main.querySelector(selector));
  let block = null; // beside which the handle is
  let isDragged = false; // the handle is, and not a text while the handle is shown
  let target = null; // where it would come: `{ node, isBehind }`

  const boxOf = (node) => editor.view.domOf(node).getBoundingClientRect();
  const blockUnder = ({ clientX, clientY }) => {
    const box = host.getBoundingClientRect();
    const inside = Math.min(Math.max(clientX, box.left + 60), box.right - 60); // beside the page's text counts, too
    const dom = document.elementsFromPoint(inside, clientY).find((it) => host.contains(it) && it !== host);
    const node = dom && editor.places.nodeAt(dom);
    return node ? blockAt(node) : null;
  };
  const put = (dom, left, top) => {
    const origin = main.getBoundingClientRect();
    dom.style.left = `${left - origin.left}px`;
    dom.style.top = `${top - origin.top}px`;
    dom.hidden = false;
  };

  main.addEventListener("mousemove", (event) => {
    if (event.buttons || isDragged || event.target === grip) return;
    block = blockUnder(event);
    grip.hidden = !block;
    if (block) put(grip, boxOf(block).left - 30, boxOf(block).top);
  });

  grip.addEventListener("dragstart", (event) => {
    if (!isIn(editor.root, block)) block = blockUnder(event); // somebody changed it since the handle came
    if (!block) return event.preventDefault();
    isDragged = true;
    event.dataTransfer.setData("text/plain", "");
    event.dataTransfer.effectAllowed = "move";
    event.dataTransfer.setDragImage(editor.view.domOf(block), 0, 0);
    return undefined;
  });
  // The press on the handle took the focus from the page, where keys shall go again.
  grip.addEventListener("dragend", () => {
    grip.hidden = line.hidden = true;
    isDragged = false;
    target = block = null;
    host.focus();
    editor.places.select(...editor.selection);
  });

  main.addEventListener("dragover", (event) => {
    if (!isDragged) return;
    const node = blockUnder(event);
    if (!node || !fitsBeside(block, node)) return;
    event.preventDefault();
    const box = boxOf(node);
    target = { node, isBehind: event.clientY > box.top + box.height / 2 };
    put(line, box.left, target.isBehind ? box.bottom : box.top);
    line.style.width = `${box.width}px`;
  });

  main.addEventListener("drop", (event) => {
    if (!isDragged) return;
    event.preventDefault();
    event.stopPropagation();
    if (!target) return;
    const [moved, { node, isBehind }] = [block, target];
    editor.act(({ root, selection }) => {
      if (!isIn(root, moved) || !isIn(root, node)) return "Somebody changed this block meanwhile, so it stays where it is";
      return movedBeside(root, moved, node, isBehind, selection);
    });
  }, true);
}
