// The editor: its tree, its selection, and the turns by which they change. What a user does is an intent, a function that is given the
// editor and gives an edit. Its lines are done at once, in the page's own world, and the screen shows what came of them.
import { moved, renewed } from "./changed.js";
import { History, LATER } from "./history.js";
import { Pairs } from "./pairs.js";
import { nameOf } from "./people.js";
import { Places } from "./places.js";
import { accepted, makesChange } from "./session.js";
import { caretPlace, newRoot } from "./tree.js";
import { erased, typed } from "./text.js";
import { View } from "./view.js";

export class Editor {
  root = newRoot();
  selection = [0, 0];
  marks = new Map(); // tags that the next typed text shall have, or not have, whatever stands on its left
  history = new History();
  view;
  places;
  session;
  page; // which page it is: what was copied of it can be put back there alone
  #heard;
  #waiting = []; // intents that can't be done yet, each with its places
  #isHeld = false; // an input method writes
  #moved = false; // the world wasn't told of the selection yet

  /** `heard` has a function for each event: changed, where list or selection did, drawn, where more was, and notice. */
  constructor(host, heard) {
    const pairs = new Pairs();
    this.view = new View(host, this.root, pairs, () => heard.drawn());
    this.places = new Places(host, this.root, pairs, this.view);
    this.#heard = heard;
  }

  /** Shows the list of a site. */
  open(session, page) {
    this.session = session;
    this.page = page;
    this.catchUp();
    this.place(Array(2).fill(caretPlace(this.root, 0, true)));
  }

  /** An intent gives an edit, a text to tell the user, or nothing. It gets the editor, and places that move along while it waits. */
  act(intent, ...places) {
    this.look();
    this.#waiting.push({ intent, places });
    this.#goOn();
  }

  #goOn() {
    while (this.#waiting.length && !this.#isHeld) {
      const first = this.#waiting.shift(); // one that fails doesn't stand in the way of the next
      const edit = first.intent(this, ...first.places);
      if (edit === LATER) {
        this.#waiting.unshift(first);
        return;
      }
      if (typeof edit === "string") this.#heard.notice(edit);
      else if (edit) this.#run(edit);
    }
  }

  /** While an input method writes nothing is drawn, or it would lose its place. */
  hold() {
    this.#isHeld = true;
  }

  release() {
    this.#isHeld = false;
    this.#goOn();
    this.catchUp();
  }

  /** Takes what the log has brought. */
  catchUp() {
    if (this.#isHeld) return;
    this.look();
    this.#run({ lines: [] });
    this.#goOn();
  }

  type(text) {
    this.act(() => typed(this.root, this.selection, text, this.marks));
  }

  erase(dir, by) {
    this.act(() => erased(this.root, this.selection, dir, by));
  }

  undo() {
    this.act(() => this.history.undo(this.session));
  }

  redo() {
    this.act(() => this.history.redo(this.session));
  }

  /** The cells of the table at a place, or nothing where they can't be told. */
  grid(at) {
    const reply = this.session.read({ do: "grid", at });
    return accepted(reply) ? JSON.parse(reply.split(" ")[3]) : null;
  }

  /** Reads where the browser's selection is, which it tells some time after a user moved it: a key or another's change may come before. */
  look() {
    const selection = this.#isHeld ? null : this.places.selection();
    if (!selection || String(selection) === String(this.selection)) return;
    this.#go(selection);
    this.#heard.changed([]);
  }

  /** Puts the selection somewhere. */
  place(selection) {
    this.#go(selection);
    this.places.select(...selection);
    this.#reveal();
    this.#heard.changed([]);
  }

  #go(selection) {
    this.selection = selection;
    this.marks = new Map();
    this.history.pause();
    this.#moved = true;
  }

  #run(edit) {
    const told = this.#moved && edit.lines.length ? [{ do: "select", anchor: this.selection[0], focus: this.selection[1] }] : [];
    const made = { ...edit, lines: [...told, ...edit.lines], numbers: [] };
    const turn = this.session.turn(made);
    const refused = turn.replies.find((reply) => !accepted(reply));
    if (edit.lines.length && !refused) {
      this.#moved = false;
      if (made.again || made.lines.some(makesChange)) this.history.note(made);
    }
    for (const { edit: one, number } of turn.numbered) one?.numbers.push(number);
    this.#show(turn, made);
    if (refused) this.#heard.notice(edit.refused?.(refused) ?? `The core refused: ${refused}`);
    if (turn.dropped.length) this.#drop(turn.dropped);
  }

  // Shows what a turn brought, and takes over the selection that the world moved along, or moves the one that it wasn't told.
  #show(turn, edit) {
    const next = renewed(this.root, turn);
    if (next) this.view.update(next.parent, next.first, next.last, next.fresh);
    this.selection = this.#moved ? this.selection.map((at) => moved(at, turn.patches)) : turn.caret;
    for (const one of this.#waiting) one.places = one.places.map((at) => moved(at, turn.patches));
    if (edit.reveal && next && !this.#moved) this.#moveTo(next.change.at + next.change.came);
    if (edit.kind) this.marks = new Map();
    if (next || edit.lines.length) this.places.select(...this.selection);
    if (edit.lines.length) this.#reveal();
    this.#heard.changed(turn.patches);
  }

  // What was typed is typed again where the caret went; anything else might now do what nobody meant.
  #drop(dropped) {
    for (const { edit } of dropped) if (edit) this.history.forget(edit);
    const typing = ({ edit }) => edit?.kind === "type" && !edit.isAgain;
    const text = dropped.filter(typing).map(({ edit }) => edit.text).join("");
    const gone = dropped.filter((one) => !typing(one)).map(({ edit }) => edit?.what ?? "an earlier change");
    const who = nameOf(dropped[0].who), names = [...new Set(gone)].join(", ");
    if (gone.length) this.#heard.notice(`${who} changed the same place at once, and came first. So this was dropped: ${names}`);
    if (text) this.act(() => ({ ...typed(this.root, this.selection, text, this.marks), isAgain: true }));
  }

  #moveTo(at) {
    const place = caretPlace(this.root, Math.min(at, this.root.size));
    this.selection = [place, place];
    this.#moved = true;
  }

  // Scrolls so far that the caret is seen.
  #reveal() {
    const box = this.places.box(this.selection[1]);
    if (box.top < 70) scrollBy(0, box.top - 90);
    else if (box.bottom > innerHeight - 20) scrollBy(0, box.bottom - innerHeight + 60);
  }
}
