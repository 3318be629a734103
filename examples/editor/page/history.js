// Undo and redo of what this window did. A change is shared at once, so it is taken back as a committed one, by `revoke`: under all that
// came later, whoever did it. With `live` what was itself taken back doesn't stand in the way, so steps go back in turn, and come again.
// A change that wasn't sent, as where no server is, is taken back by `undo`.
import { makesChange } from "./session.js";

const BURST = 1000; // milliseconds in which typing goes on as one step

/** What an intent gives that has to wait until the log has answered. */
export const LATER = Symbol("later");

const isNumbered = (edit) => edit.numbers.length === edit.lines.filter(makesChange).length;
const numbersOf = (edits) => edits.flatMap(({ numbers }) => numbers);

export class History {
  // A step is edits; or `again`, the number of changes that `undo` took back, which `redo` makes again.
  #done = [];
  #undone = [];
  #goesOn = false; // whether what is typed next may belong to the last step

  /** An edit that was made: a new step, or one that `undo` or `redo` asked for. */
  note(edit) {
    const step = edit.again ? { again: edit.again } : { edits: [edit], kind: edit.kind, time: performance.now() };
    if (edit.stack) {
      edit.stack.push(step);
      return;
    }
    this.#undone = [];
    const last = this.#done.at(-1);
    if (last?.edits && this.#goesOn && joins(last, step)) this.#done.splice(-1, 1, { ...step, edits: [...last.edits, edit] });
    else this.#done.push(step);
    this.#goesOn = true;
  }

  /** The user went elsewhere: what is typed there is another step. */
  pause() {
    this.#goesOn = false;
  }

  /** An edit that was dropped. */
  forget(edit) {
    for (const stack of [this.#done, this.#undone]) {
      const k = stack.findIndex(({ edits }) => edits?.includes(edit));
      if (k < 0) continue;
      const edits = stack[k].edits.filter((one) => one !== edit);
      stack.splice(k, 1, ...(edits.length ? [{ ...stack[k], edits }] : []));
    }
    edit.restore?.();
  }

  /** The edit that takes the last step back. */
  undo(session) {
    return this.#back(session, this.#done, this.#undone, "undo", "undone");
  }

  redo(session) {
    return this.#back(session, this.#undone, this.#done, "redo", "made again");
  }

  #back(session, from, to, word, done) {
    const step = from.at(-1);
    if (!step) return `There is nothing to ${word}`;
    const way = wayBack(step, session);
    if (!way.lines) return way;
    from.pop();
    this.pause();
    const refused = () => `This can't be ${done}: a later change stands in its place`;
    return { ...way, stack: to, reveal: true, refused, restore: () => from.push(step), what: `your ${word}` };
  }

  get state() {
    return { undo: this.#done.length > 0, redo: this.#undone.length > 0 };
  }
}

// What was taken back is sure to count no more where nothing else was on its way then; so a window that is in touch waits for that.
function wayBack({ edits, again }, session) {
  if (again) return { lines: Array(again).fill({ do: "redo" }) };
  if (session.areUnsent(edits)) {
    const count = edits.flatMap(({ lines }) => lines.filter(makesChange)).length;
    return { lines: Array(count).fill({ do: "undo" }), again: count };
  }
  if (session.isInTouch && session.isPending) return LATER;
  if (!edits.every(isNumbered)) return "This is on its way to the server, and can be undone when it has come back";
  return { lines: numbersOf(edits).reverse().map((entry) => ({ do: "revoke", entry, live: true })) };
}

const joins = (last, step) => step.kind && last.kind === step.kind && step.time - last.time <= BURST;
