// A page that is edited: the log of its lines, a core that answers each of them first, and a site of it for each window.
import { randomUUID } from "node:crypto";
import { COMMANDS } from "../../clients/web/table.js";
import { sitesFor } from "./page/sites.js";
import { sumOf } from "./page/sum.js";
import { Rejected } from "./rejected.mjs";

const AWAY = 60_000; // milliseconds for which nobody else gets the site of a window that lost its connection
const LONG = 48 << 20; // bytes of a log that begins anew as soon as nobody is there
const MOST = 60 << 20; // bytes of any log: a program reads 64 MiB
const PIECE = 500; // lines of a log that are sent at once

// What a window may write: what changes something, but for the page that is opened.
const CHANGING = new Set(["number", "selection", "served", "taken"]); // replies
const isWritten = (what) => Object.hasOwn(COMMANDS, what) && what !== "open" && CHANGING.has(COMMANDS[what].gives);

const accepted = (reply) => reply.startsWith("ok");

// A line as a window spells it, which names its own site.
function checked(line, isSite) {
  let command;
  try {
    command = JSON.parse(line);
  } catch {
    throw new Rejected(400, "a line is JSON");
  }
  if (JSON.stringify(command) !== line || !line.isWellFormed()) throw new Rejected(400, "a line is spelled as JSON.stringify does");
  if (!isWritten(command?.do) || !isSite(command.site)) throw new Rejected(400, "a window writes no such line");
  return line;
}

export class Room {
  #newCore;
  #core;
  #log;
  #lines;
  #sums; // of the first lines, by their number
  #bytes;
  #counts; // of each site's lines
  #fault; // why the page isn't there
  #windows = new Map(); // by their secrets: `{ site, wire, since, presence }`
  #turns = Promise.resolve();

  /** `newCore` starts a core; `page` is the page as it is before anybody edits it. */
  constructor(newCore, page) {
    this.#newCore = newCore;
    this.#inTurn(() => this.#begin(randomUUID(), [openLine(page)])).catch((error) => (this.#fault = error));
  }

  // Another log in the place of this one. The windows are sent away, and come again.
  async #begin(log, lines) {
    const core = this.#newCore();
    for (const line of lines) {
      const reply = await core.line(line);
      if (accepted(reply)) continue;
      core.close();
      throw new Rejected(409, `the core answers: ${reply}`);
    }
    this.#core?.close();
    this.#core = core;
    this.#log = log;
    this.#lines = [];
    this.#sums = [0];
    this.#bytes = 0;
    this.#counts = Array(JSON.parse(lines[0]).sites).fill(0);
    lines.forEach((line) => this.#note(line));
    this.close();
  }

  /** Sends the windows away. They come again, to the room that is there then. */
  close() {
    for (const { wire } of this.#windows.values()) wire?.close();
    this.#windows.clear();
  }

  #note(line) {
    const { site } = JSON.parse(line);
    this.#lines.push(line);
    this.#sums.push(sumOf(this.#sums.at(-1), line));
    this.#bytes += line.length;
    if (site !== undefined) this.#counts[site]++;
  }

  // Has the core answer a line, and puts it into the log where it was accepted: a refusal changes nothing.
  async #ask(line) {
    const reply = await this.#core.line(line);
    if (accepted(reply)) this.#note(line);
    return reply;
  }

  /**
   * A window comes, with what it has of the log. It gets a site, which it may have had before, and a secret that names it from now on; and
   * the lines that it doesn't have.
   */
  join(wire, { id: known, site: wanted, log, length, sum }) {
    return this.#inTurn(async () => {
      if (!this.#core) throw this.#fault;
      const isKnown = log === this.#log && this.#sums[length] === sum;
      const id = isKnown && known ? known : randomUUID();
      const site = this.#windows.get(id)?.site ?? (await this.#free(isKnown ? wanted : undefined));
      this.#windows.set(id, { site, wire });
      wire.send("hello", { id, site, log: this.#log, length: this.#lines.length, isKnown, isUntouched: this.#lines.length === 1 });
      for (let k = isKnown ? length : 0; k < this.#lines.length; k += PIECE) wire.send("lines", { lines: this.#lines.slice(k, k + PIECE) });
      for (const { site: other, presence } of this.#windows.values()) if (presence) wire.send("presence", { ...presence, site: other });
      return id;
    });
  }

  // A site that nobody has, or that of the window that has been away for longest. What was left there is joined with the rest.
  async #free(wanted) {
    const taken = new Set([...this.#windows.values()].map(({ site }) => site));
    if (wanted in this.#counts && !taken.has(wanted)) return wanted;
    const site = this.#counts.findIndex((_, k) => !taken.has(k));
    return this.#cleared(site < 0 ? this.#takenBack() : site);
  }

  #takenBack() {
    const away = [...this.#windows].filter(([, { wire, since }]) => !wire && Date.now() - since > AWAY);
    if (away.length === 0) throw new Rejected(503, `${this.#counts.length} windows are open already`);
    const [id, { site }] = away.reduce((a, b) => (a[1].since <= b[1].since ? a : b));
    this.#windows.delete(id);
    return site;
  }

  async #cleared(site) {
    const first = this.#lines.length;
    const can = async (what) => accepted(await this.#ask(JSON.stringify({ do: what, site })));
    while ((await can("serve")) || (await can("take")) || (await can("send")));
    this.#tellLines(first);
    return site;
  }

  /** A window's connection is gone. */
  leave(id, wire) {
    const window = this.#windows.get(id);
    if (window?.wire !== wire) return; // it came back by another connection
    Object.assign(window, { wire: null, presence: null, since: Date.now() });
    this.#tell(id, "left", { site: window.site });
    this.#inTurn(() => this.#renew()).catch(() => {});
  }

  /** Lines of a window, of which the first has this number among all of its site's. Those that are there already are passed. */
  write(id, from, lines, presence) {
    return this.#inTurn(async () => {
      const window = this.#windows.get(id);
      if (!window) throw new Rejected(410, "this window's place was given to another one");
      const first = this.#lines.length, has = this.#counts[window.site];
      if (from > has) throw new Rejected(409, "lines before these are missing");
      if (lines.length && this.#bytes > MOST) throw new Rejected(413, "the page's log is full, and begins anew once all windows are closed");
      try {
        for (const line of lines.slice(has - from)) await this.#writeOne(checked(line, (site) => site === window.site));
      } finally {
        this.#tellLines(first);
      }
      if (presence) this.#tell(id, "presence", { ...(window.presence = presence), site: window.site });
    });
  }

  async #writeOne(line) {
    const reply = await this.#ask(line);
    if (!accepted(reply)) throw new Rejected(409, `the server's core answers ${reply} to a line of this window`);
  }

  // A long log begins anew where nobody is there, by the page as it is. What isn't joined yet is joined before.
  async #renew() {
    if (this.#bytes < LONG || [...this.#windows.values()].some(({ wire }) => wire)) return;
    for (let k = 0; k < this.#counts.length; k++) await this.#cleared(k);
    await this.#cleared(0);
    const page = JSON.parse((await this.#core.line('{"do":"html"}')).slice(3));
    await this.#begin(randomUUID(), [openLine(page)]);
  }

  /** The log of a window that went on without a server, in the place of one to which nobody wrote. */
  seed(old, log, lines) {
    return this.#inTurn(() => {
      if (!this.#core) throw this.#fault;
      const isUntouched = old === this.#log && this.#lines.length === 1 && lines[0] === this.#lines[0];
      if (!isUntouched) throw new Rejected(409, "there is another log of this page");
      for (const line of lines.slice(1)) checked(line, (site) => site in this.#counts);
      return this.#begin(log, lines);
    });
  }

  #inTurn(act) {
    const turn = this.#turns.then(act);
    this.#turns = turn.catch(() => {});
    return turn;
  }

  #tellLines(first) {
    if (first < this.#lines.length) this.#tell(null, "lines", { lines: this.#lines.slice(first) });
  }

  #tell(but, event, data) {
    for (const [id, { wire }] of this.#windows) if (id !== but) wire?.send(event, data);
  }
}

const openLine = (page) => JSON.stringify({ do: "open", page, sites: sitesFor(page) });
