// The log of a page's lines, as this window has it. As long as no server has it the window alone writes it, and each line that is written has
// come. Once a server has it, the server says in which order lines come.
import { Link } from "./link.js";
import { Session } from "./session.js";
import { sitesFor } from "./sites.js";
import { sumOf } from "./sum.js";

const NEWCOMER = 0; // the site of a window that is alone

export class Log {
  #page;
  #newWorld;
  #keep;
  #link;
  #heard;
  #about = null; // which log it is, and the window's place in it: `{ log, id, site, isShared }`
  #session = null;
  #lines = [];
  #sum = 0; // of all lines
  #expected = 0; // how many lines there are before the window begins
  #isFetching = false; // the page, to begin alone

  /**
   * `heard` has a function for each event: opened, with the session; brought, where lines have come; presence and left, of other windows;
   * state, with whether all that is done is shared or waits for a server; and stopped.
   */
  constructor(page, newWorld, keep, heard) {
    this.#page = page;
    this.#newWorld = newWorld;
    this.#keep = keep;
    this.#heard = heard;
    this.#link = new Link(page, {
      hello: (hello) => this.#greet(hello),
      lines: ({ lines }) => this.#hear(lines),
      presence: (other) => heard.presence(other),
      left: (other) => heard.left(other),
      lost: () => this.#lose(),
      ended: ({ why }) => heard.stopped(why),
    });
  }

  /** Opens what was kept, if there is something, and asks for the server. */
  async open() {
    const kept = await this.#keep?.read();
    if (kept?.lines.length) this.#begin(kept.about, kept.lines, kept.ahead);
    this.#link.connect(() => this.#claim());
  }

  // What the window has of the log.
  #claim() {
    if (!this.#session) return {};
    const { log, id, site } = this.#about;
    return { log, site, length: this.#lines.length, sum: this.#sum, ...(id && { id }) };
  }

  get id() {
    return this.#about.log;
  }

  /** Whether others may come to see what is sent. Where nobody does, nothing is sent, and `undo` takes it back. */
  get isThere() {
    return this.#link.isThere;
  }

  /** Takes the session's own lines that haven't come yet. */
  write(session) {
    if (!this.#about.isShared) this.#bring([...session.ahead.lines]);
    else this.#keep?.add(this.#lines.length, [], session.ahead);
    this.#link.write();
  }

  tell(presence) {
    if (this.#about.isShared) this.#link.tell(presence);
  }

  #begin(about, lines, ahead = []) {
    this.#about = about;
    this.#take(lines);
    this.#session = new Session(this.#newWorld(), about.site, this, lines, ahead);
    this.#heard.opened(this.#session);
  }

  #take(lines) {
    for (const line of lines) {
      this.#sum = sumOf(this.#sum, line);
      this.#lines.push(line);
    }
  }

  // Lines that come next. Whether there is something to take.
  #bring(lines) {
    const first = this.#lines.length;
    this.#take(lines);
    const isMore = this.#session.hear(lines);
    this.#keep?.add(first, lines, this.#session.ahead);
    return isMore;
  }

  #hear(lines) {
    if (this.#session && !this.#link.isThere) return null; // those of another log
    if (this.#session) return this.#bring(lines) && this.#heard.brought();
    for (const line of lines) this.#lines.push(line);
    return this.#lines.length >= this.#expected ? this.#arrive() : null;
  }

  // All of a server's log has come.
  #arrive() {
    const lines = this.#lines.splice(0);
    this.#keep?.begin(this.#about);
    this.#begin(this.#about, lines);
    this.#keep?.add(0, lines, this.#session.ahead);
    this.#share(this.#about);
  }

  // Without a server the page itself is the log's first line.
  async #fetch() {
    this.#isFetching = true;
    const answer = await fetch(this.#page).catch(() => null);
    const page = answer?.ok ? await answer.text() : null;
    this.#isFetching = false;
    if (this.#about) return null; // a server came meanwhile
    return page === null ? this.#heard.stopped(`There is no page ${this.#page}`) : this.#beginAlone(page);
  }

  #beginAlone(page) {
    const lines = [JSON.stringify({ do: "open", page, sites: sitesFor(page) })];
    const about = { log: crypto.randomUUID(), id: null, site: NEWCOMER, isShared: false };
    this.#keep?.begin(about);
    this.#begin(about, lines);
    this.#keep?.add(0, lines, this.#session.ahead);
    this.#heard.state("alone");
  }

  // The server has the same log, or none that anybody wrote to, or another one.
  async #greet({ log, id, site, length, isKnown, isUntouched }) {
    if (!this.#session) {
      this.#about = { log, id, site, isShared: true };
      this.#expected = length;
      return undefined;
    }
    if (isKnown && site === this.#session.site) return this.#share({ ...this.#about, id });
    if (isUntouched && (await this.#link.seed(log, this.#about.log, this.#lines))) return this.#link.reconnect();
    if (this.#hasOwn) return this.#heard.stopped("The server has another copy of this page, with which yours can't be joined");
    this.#keep?.forget();
    return location.reload();
  }

  // Whether there is something of this window's own that would be lost.
  get #hasOwn() {
    return this.#about.isShared ? this.#session.isPending : this.#lines.length > 1;
  }

  #share(about) {
    this.#about = { ...about, isShared: true };
    this.#keep?.note(this.#about);
    this.#link.begin(this.#session);
    this.#heard.state("shared");
  }

  // A window that has nothing yet begins alone, unless the server was there a moment ago.
  #lose() {
    if (this.#session) return this.#heard.state(this.#about.isShared ? "away" : "alone");
    const wasThere = this.#about !== null;
    this.#about = null;
    this.#lines = [];
    return wasThere || this.#isFetching ? null : this.#fetch();
  }
}
