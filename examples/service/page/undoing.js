// What this writer can take back and make again. What was sent is committed at once, so that is done by `revoke`, and each of these is a
// change of its own, which can be revoked in its turn. All of it is read from what was committed, and ends where the log is cut.
export class Undoing {
  #done = []; // submissions of this writer: { first, count }, by the numbers of their changes
  #undone = []; // those that took the ones back that were undone

  /**
   * Changes of this writer were committed, from this number on.
   * @param {number} first
   * @param {object[]} lines
   */
  committed(first, lines) {
    const group = { first, count: lines.length };
    const back = lines.at(-1).do === "revoke" ? lines.at(-1).entry : null;
    if (back !== null && this.#done.at(-1)?.first === back) {
      this.#done.pop();
      this.#undone.push(group);
    } else if (back !== null && this.#undone.at(-1)?.first === back) {
      this.#undone.pop();
      this.#done.push(group);
    } else {
      this.#done.push(group);
      this.#undone = [];
    }
  }

  /** The lines that take back what was done last. */
  get undo() {
    return revoked(this.#done.at(-1));
  }

  get redo() {
    return revoked(this.#undone.at(-1));
  }
}

// Newest first. `live` passes over what was taken back meanwhile.
function revoked(group) {
  if (!group) return [];
  return Array.from({ length: group.count }, (_, k) => ({ do: "revoke", entry: group.first + group.count - 1 - k, live: true }));
}
