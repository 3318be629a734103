// Somebody who reads a page, and writes it: what is typed is done on the replica at once and sent, or waits for a seat.
import { Connection } from "./connection.js";
import { typed } from "./edits.js";
import { Replica } from "./replica.js";

const IDLE = 30_000; // milliseconds without a change until the seat is given back
const TELL = 100; // and from one word to the others of where the selection is to the next

export class Writer {
  #replica;
  #connection;
  #key;
  #heard;
  #welcome = null; // what the service said when the connection began
  #intents = []; // that wait for a seat
  #drawn = ""; // which world and site the items are of
  #idle = null;
  #telling = null;
  items = []; // the list that is shown, an entry for each item
  selection = [0, 0];
  people = new Map(); // who else is here: { name, selection }

  /**
   * `heard` is told before the items change, where they or people did, and of what went wrong.
   * @param {string} url of the page's socket
   * @param {string} key that nobody can guess
   * @param {() => { line(text: string): string }} makeWorld
   * @param {{ changing(): void, changed(): void, people(): void, notice(text: string): void }} heard
   */
  constructor(url, key, makeWorld, heard) {
    this.#key = key;
    this.#heard = heard;
    this.#replica = new Replica(makeWorld);
    this.#connection = new Connection(url, {
      opened: () => this.#connection.say({ key: this.#key, from: this.#replica.next }),
      said: (message) => this.#said(message),
      away: () => {
        this.#welcome = null;
        this.people.clear();
        heard.people();
        heard.notice(this.unsaid ? "Not connected: what you write is kept, and sent later" : "Not connected");
      },
    });
  }

  /** How many lines the service hasn't answered, and changes that wait for a seat. */
  get unsaid() {
    return this.#replica.ahead.length + this.#intents.length;
  }

  /**
   * Something that is to be done: a function that is given this writer, and gives lines and where the selection goes.
   * @param {(writer: Writer) => { lines: object[], selection?: [number, number] } | null} intent
   */
  act(intent) {
    this.#intents.push(intent);
    this.#go();
  }

  undo() {
    this.act(() => ({ lines: this.#replica.undoing.undo }));
  }

  redo() {
    this.act(() => ({ lines: this.#replica.undoing.redo }));
  }

  /** @param {[number, number]} selection */
  select(selection) {
    this.selection = selection;
    this.#tell();
  }

  close() {
    clearTimeout(this.#idle);
    clearTimeout(this.#telling);
    this.#connection.close();
  }

  #said(message) {
    if (message.who !== undefined) this.#begin(message);
    else if (message.lines) this.#follow(message);
    else if (message.people || message.gone) this.#meet(message);
    else if (message.error) this.#refused(message);
    if (this.#welcome && this.#replica.next >= this.#welcome.next) this.#caughtUp();
  }

  #begin(welcome) {
    this.#welcome = { next: welcome.next, isNew: true };
    this.#replica.holder = welcome.holder;
    this.#replica.n = Math.max(this.#replica.n, welcome.done);
    this.#heard.notice("");
  }

  // The log has come as far as it was when the connection began. What was done here, and isn't in it, is said again.
  #caughtUp() {
    if (this.#welcome.isNew) {
      this.#welcome.isNew = false;
      for (const { n, line } of this.#replica.ahead) this.#connection.say({ n, since: this.#replica.since, line });
      this.#tell();
    }
    this.#go();
  }

  #follow({ number, lines }) {
    this.#typeAgain(this.#replica.follow(number, lines));
    this.#meetTheOthers();
    this.#show();
  }

  // Takes what others did, and sends what is unsent, where nothing is on its way.
  #meetTheOthers() {
    if (this.#replica.site === null) return;
    while (this.#do({ do: "take" }));
    this.#typeAgain(this.#replica.dropped.splice(0));
    if (this.#replica.hasUnsent) this.#do({ do: "send" });
  }

  // A line at the seat; whether it was accepted. Where those before it are still to be said again, it is said after them.
  #do(line) {
    const { message } = this.#replica.do(line);
    if (message && this.#welcome?.isNew === false) this.#connection.say(message);
    return message !== null;
  }

  // Text that was dropped, or whose list ended, is typed where the caret went. Anything else might now do what nobody meant.
  #typeAgain(lines) {
    const text = lines.filter((line) => line.do === "text").map((line) => line.text).join("");
    if (text) this.#intents.push((writer) => typed(writer, text));
    if (lines.some((line) => !["text", "send", "take", "select"].includes(line.do))) {
      this.#heard.notice("Somebody changed the same place at once: a change of yours was dropped");
    }
  }

  #go() {
    if (this.#intents.length === 0 || this.#replica.next === 0) return;
    if (this.#replica.site === null) {
      if (this.#welcome && !this.#welcome.isWaiting) this.#connection.say({ sit: true });
      if (this.#welcome) this.#welcome.isWaiting = true;
      return;
    }
    if (this.#welcome) this.#welcome.isWaiting = false;
    for (const intent of this.#intents.splice(0)) {
      const made = intent(this);
      if (!made) continue;
      if (made.lines.every((line) => this.#do(line))) this.#show(made.selection);
      else this.#heard.notice("This can't be done here");
    }
    this.#meetTheOthers();
    this.#show();
    clearTimeout(this.#idle);
    this.#idle = setTimeout(() => this.#rise(), IDLE);
  }

  #rise() {
    if (this.#replica.isCommitted && this.unsaid === 0) this.#connection.say({ rise: true });
  }

  // What the service doesn't do was done here, so the replica begins anew from the log. (Where a list ended the log says so.)
  #refused({ n, error, why }) {
    if (["cut", "seat", "passed"].includes(error)) return;
    this.#heard.notice(`Not saved: ${why ?? error}`);
    if (this.#welcome) this.#welcome.isWaiting = false;
    if (n === undefined) this.#intents = [];
    else this.#replica.rebuild();
    this.#show();
  }

  // Brings the items up to what the replica shows, and the selections with them; or puts this writer's where an edit wants it.
  #show(wanted) {
    const replica = this.#replica, drawn = `${replica.worlds} ${replica.shown}`;
    const isWhole = drawn !== this.#drawn;
    const told = replica.changes(); // from here on it tells what comes after what is drawn now
    const { patches, came } = isWhole ? { patches: [], came: [] } : told;
    if (!isWhole && patches.length === 0) return;
    this.#heard.changing();
    this.#drawn = drawn;
    if (isWhole) this.items = single(JSON.parse(replica.ask({ do: "data" }).slice(3)));
    for (const [at, removed, inserted] of patches) {
      this.items = this.items.slice(0, at).concat(Array(inserted), this.items.slice(at + removed));
    }
    for (const [at, items] of came) single(items).forEach((item, k) => (this.items[at + k] = item));
    const moved = (at) => Math.min(patches.reduce(mapped, at), this.items.length);
    this.selection = wanted ?? this.selection.map(moved);
    for (const one of this.people.values()) one.selection = one.selection?.map(moved);
    this.#heard.changed();
    this.#tell();
  }

  #meet({ people = [], gone = [] }) {
    for (const who of gone) this.people.delete(who);
    for (const { who, name, selection } of people) {
      this.people.set(who, { name, selection: selection && [selection.anchor, selection.focus] });
    }
    this.#heard.people();
  }

  // Others are told where the selection is once the list is one that they have, too.
  #tell() {
    this.#telling ??= setTimeout(() => {
      this.#telling = null;
      const [anchor, focus] = this.selection;
      if (this.#replica.isCommitted) this.#connection.say({ here: { anchor, focus, entries: this.#replica.entries } });
    }, TELL);
  }
}

/** Runs as their characters, each with its marks. */
export function single(items) {
  return items.flatMap((item) => {
    if (typeof item === "string") return [...item].map((char) => [char, []]);
    return Array.isArray(item) ? [...item[0]].map((char) => [char, item[1]]) : [item];
  });
}

// Where an offset stands after a patch.
function mapped(at, [place, removed, inserted]) {
  if (at <= place && !(at === place && removed)) return at;
  return at >= place + removed ? at + inserted - removed : place + inserted;
}
