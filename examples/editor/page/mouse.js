// The mouse, where the browser would select something else than a user means: a picture or another leaf as a whole by a click on it, and
// by three clicks what stands in one paragraph and no more.
import { endOf, innerEnd, innerStart, innermost, isContent, startOf } from "./tree.js";

/**
 * @param {HTMLElement} host
 * @param {import("./editor.js").Editor} editor
 */
export function listenToMouse(host, editor) {
  host.addEventListener("mousedown", (event) => {
    if (event.button !== 0) return;
    const leaf = editor.places.leafAt(event.target);
    const wanted = leaf && leaf.kind !== "br" ? [startOf(leaf), endOf(leaf)] : event.detail === 3 ? branchAt(event) : null;
    if (!wanted) return;
    const [lo, hi] = editor.selection;
    // a second press on what is selected may be the beginning of a drag
    if (leaf && lo === wanted[0] && hi === wanted[1]) return;
    event.preventDefault();
    host.focus();
    editor.place(wanted);
  });

  // a press on it that wasn't the beginning of a drag took the selection off
  host.addEventListener("mouseup", (event) => {
    const leaf = event.button === 0 ? editor.places.leafAt(event.target) : null;
    if (leaf && leaf.kind !== "br") editor.place([startOf(leaf), endOf(leaf)]);
  });

  function branchAt({ clientX, clientY }) {
    const at = editor.places.offsetAt(clientX, clientY);
    const branch = at === null ? null : innermost(editor.root, at);
    return branch && isContent(branch) ? [innerStart(branch), innerEnd(branch)] : null;
  }
}
