// What the user does by keys, as intents of the editor. The browser changes nothing of the page by itself: each `beforeinput` is taken from
// it, but for those of an input method, which writes into the document until its text is chosen.
import { indented, kindsAt, outdented } from "./blocks.js";
import { movedBy } from "./moving.js";
import { besideCell, inTable, tableChanged } from "./tables.js";
import { broken, parted } from "./text.js";
import { caretPlace, shown } from "./tree.js";

const endOfShown = (root) => shown(root).reduce((size, kid) => size + kid.size, 0);

/**
 * @param {HTMLElement} host
 * @param {import("./editor.js").Editor} editor
 * @param {Record<string, () => void>} shortcuts
 */
export function listen(host, editor, shortcuts) {
  const inputs = {
    insertText: ({ data }) => editor.type(data),
    insertReplacementText: (event) => {
      const [range] = event.getTargetRanges();
      const text = event.dataTransfer?.getData("text/plain") ?? event.data;
      const { places } = editor;
      editor.place([places.offset(range.startContainer, range.startOffset), places.offset(range.endContainer, range.endOffset)]);
      if (text) editor.type(text);
    },
    insertParagraph: () => editor.act(({ root, selection }) => parted(root, selection)),
    insertLineBreak: () => editor.act(({ root, selection }) => broken(root, selection)),
    deleteContentBackward: () => editor.erase("back", "cluster"),
    deleteContentForward: () => editor.erase("ahead", "cluster"),
    deleteWordBackward: () => editor.erase("back", "word"),
    deleteWordForward: () => editor.erase("ahead", "word"),
    historyUndo: () => editor.undo(),
    historyRedo: () => editor.redo(),
  };

  host.addEventListener("beforeinput", (event) => {
    if (event.isComposing) return;
    event.preventDefault();
    inputs[event.inputType]?.(event);
  });

  // What the user does next may come before the browser tells of the selection.
  for (const name of ["selectionchange", "mousedown", "keydown", "compositionstart", "copy", "cut", "dragstart"]) {
    document.addEventListener(name, () => editor.look(), true);
  }

  // What isn't drawn yet the browser doesn't know, so the ends of the page are ours.
  function toEnd({ key, shiftKey }) {
    editor.act(({ root, selection }) => {
      const at = key === "Home" ? caretPlace(root, 0, true) : caretPlace(root, endOfShown(root));
      editor.place([shiftKey ? selection[0] : at, at]);
    });
  }

  // Tab goes from cell to cell, and makes a row at a table's end; in a list it takes the item deeper. Elsewhere it leads out of the page.
  function tab(back) {
    return editor.act(({ root, selection }) => {
      if (!inTable(root, selection)) return (back ? outdented : indented)(root, selection);
      const next = besideCell(root, selection, back);
      if (next !== null) return editor.place([next, next]);
      return back ? null : tableChanged(root, selection, "row_below", editor);
    });
  }

  host.addEventListener("keydown", (event) => {
    if (event.isComposing) return;
    if (event.ctrlKey && (event.key === "Home" || event.key === "End")) {
      event.preventDefault();
      toEnd(event);
    }
    if (event.altKey && (event.key === "ArrowUp" || event.key === "ArrowDown")) {
      event.preventDefault();
      editor.act(({ root, selection }) => movedBy(root, selection, event.key === "ArrowUp" ? -1 : 1));
    }
    const { root, selection } = editor;
    if (event.key === "Tab" && (inTable(root, selection) || kindsAt(root, selection).list)) {
      event.preventDefault();
      tab(event.shiftKey);
    }
    const shortcut = (event.ctrlKey || event.metaKey) && shortcuts[(event.shiftKey ? "shift+" : "") + event.key.toLowerCase()];
    if (shortcut) {
      event.preventDefault();
      shortcut();
    }
  });
}
