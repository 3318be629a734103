// In the place of examples/editor's own log.js: the log of a page is the service's. The window has a seat for as long as it is open.
import { Connection } from "../window/connection.js";
import { people } from "./people.js";
import { Session } from "./session.js";

const TELL = 100; // milliseconds from one word to the others of where the selection is to the next

export class Log {
  #page;
  #newWorld;
  #heard;
  #connection;
  #key = crypto.randomUUID();
  #holder = null; // how the log names this window
  #session = null;
  #lines = []; // of the log, until the session begins
  #first = 0; // the number of the newest `open`
  #next = 0; // and of the log's next line
  #until = Infinity; // as far as the log was when the connection began
  #site = null;
  #since = -1; // the number of the line by which the seat was lent
  #n = 0; // the number of this window's last line
  #unanswered = []; // its lines that the log hasn't brought: { n, line }
  #written = 0; // how many of the session's own lines were written
  #early = []; // what was heard of others before the session began
  #presence = null;
  #telling = null;
  isThere = false;

  /** The interface is that of examples/editor's; nothing is kept in the browser here. */
  constructor(page, newWorld, _keep, heard) {
    this.#page = page;
    this.#newWorld = newWorld;
    this.#heard = heard;
  }

  open() {
    const name = new URLSearchParams(location.search).get("name");
    const url = new URL(`/pages/${encodeURIComponent(this.#page)}/edit`, location.href.replace("http", "ws"));
    if (name) url.searchParams.set("name", name);
    this.#connection = new Connection(url.href, {
      opened: () => this.#connection.say({ key: this.#key, from: this.#next }),
      said: (message) => this.#said(message),
      away: () => {
        this.isThere = false;
        this.#heard.state("away");
        for (const site of people.clear()) this.#heard.left({ site });
      },
    });
  }

  get id() {
    return `${this.#page} ${this.#first}`;
  }

  /** Takes the session's own lines that weren't written yet. `serve` is the service's to write. */
  write() {
    if (!this.isThere) return;
    const { from, lines } = this.#session.ahead;
    for (const text of lines.slice(Math.max(0, this.#written - from))) {
      const line = JSON.parse(text);
      if (line.do !== "serve") this.#say({ n: ++this.#n, line });
    }
    this.#written = from + lines.length;
  }

  tell(presence) {
    this.#presence = presence;
    this.#telling ??= setTimeout(() => {
      this.#telling = null;
      const { seen, caret: [anchor, focus] } = this.#presence;
      this.#connection.say({ here: { anchor, focus, entries: seen } });
    }, TELL);
  }

  #say(own) {
    this.#unanswered.push(own);
    this.#connection.say({ ...own, since: this.#since });
  }

  #said(message) {
    if (message.who !== undefined) this.#begin(message);
    else if (message.lines) this.#follow(message.number, message.lines);
    else if (message.people || message.gone) this.#meet(message);
    else if (message.error && !["cut", "seat", "passed"].includes(message.error)) this.#heard.stopped(message.why ?? message.error);
    if (!this.isThere && this.#next >= this.#until) this.#caughtUp();
  }

  #begin({ holder, next, done, name }) {
    this.#holder = holder;
    this.#until = next;
    this.#n = Math.max(this.#n, done);
    people.me = name;
  }

  // The log has come as far as it was when the connection began.
  #caughtUp() {
    if (this.#site === null) {
      this.#until = this.#next + 1; // the line by which the seat is lent
      return this.#connection.say({ sit: true });
    }
    this.isThere = true;
    if (this.#session) for (const own of this.#unanswered) this.#connection.say({ ...own, since: this.#since });
    else this.#open();
    this.#heard.state("shared");
    return this.#session.resume();
  }

  #open() {
    people.mine = this.#site;
    this.#session = new Session(this.#newWorld(), this.#site, this, this.#lines.splice(0));
    this.#written = this.#session.ahead.from;
    this.#heard.opened(this.#session);
    for (const message of this.#early.splice(0)) this.#meet(message);
  }

  #follow(number, lines) {
    const fresh = lines.slice(Math.max(0, this.#next - number));
    const isAnew = this.#session && fresh.some((line) => line.do === "open");
    if (isAnew) return location.reload(); // the log was cut, at a quiet moment if there was one
    if (this.#session && fresh.some((line) => line.site === this.#site && line.log?.leave)) return this.#leave();
    fresh.forEach((line, k) => this.#note(line, number + lines.length - fresh.length + k));
    const bare = fresh.map(({ log: _log, ...line }) => JSON.stringify(line));
    this.#next = number + lines.length;
    if (!this.#session) return this.#lines.push(...bare);
    this.#session.hear(bare);
    return this.#heard.brought();
  }

  #note({ do: what, site, log }, number) {
    if (what === "open") [this.#first, this.#lines] = [number, []];
    else if (log?.join === this.#holder) [this.#site, this.#since] = [site, number];
    else if (site === this.#site && log?.n === this.#unanswered[0]?.n && what !== "serve") this.#unanswered.shift();
  }

  #leave() {
    this.#connection.close();
    this.isThere = false;
    this.#heard.stopped("Others needed this window's place");
  }

  #meet(message) {
    if (!this.#session) return this.#early.push(message);
    const { people: some = [], gone = [] } = message;
    for (const who of gone) this.#heard.left({ site: people.gone(who) });
    for (const { who, name, selection } of some) {
      const site = people.came(who, name);
      if (selection) this.#heard.presence({ site, seen: selection.entries, caret: [selection.anchor, selection.focus] });
    }
    return undefined;
  }
}
