// A copy of the page: a world that runs the page's log, and this writer's own lines ahead of it.
//
// Lines of two sites change places without a change of any reply, unless both serve or take. So what this writer does at its site is done
// here at once, and its lines are passed over when they come in the log. Its `take` too is done ahead where something waits for the site:
// what it takes is the first of a queue, and whatever is served later goes to the queue's end.
import { Undoing } from "./undoing.js";

export const VIEW = 7; // the site of who only reads; it takes whatever is served

const accepted = (reply) => reply.startsWith("ok");

export class Replica {
  #makeWorld;
  #world = null;
  #lines = []; // of the log, from the newest `open` on
  #pending = []; // this writer's changes that aren't committed, nor dropped, in their order
  #unsent = 0; // so many of them, from the last one back
  holder = null; // how the log names this writer
  next = 0; // the number of the log's next line
  site = null; // the seat, where there is one
  since = -1; // the number of the line with which the seat's list began
  n = 0; // the number of this writer's last line
  entries = 0; // how many changes were committed since the `open`
  worlds = 0; // how many worlds there were: each begins from what it tells as `changes`
  dropped = []; // changes of this writer that a `take` dropped
  undoing = new Undoing();
  ahead = []; // lines that were done here and that the log doesn't have yet: { n, line }

  /** @param {() => { line(text: string): string }} makeWorld */
  constructor(makeWorld) {
    this.#makeWorld = makeWorld;
  }

  /** The site that is shown. */
  get shown() {
    return this.site ?? VIEW;
  }

  /**
   * Runs lines of the log, from this number on. Gives the lines of this writer that were lost: those that the log doesn't have, and
   * can't get, as the list that they were made on ended.
   * @param {number} number
   * @param {object[]} lines
   * @returns {object[]}
   */
  follow(number, lines) {
    const lost = [];
    for (const [k, line] of lines.entries()) {
      if (number + k < this.next && line.do !== "open") continue;
      if (line.do === "open") this.#lines = [];
      this.#lines.push(line);
      this.next = number + k + 1;
      lost.push(...this.#run(line, number + k));
    }
    return lost;
  }

  /** Begins anew with the log alone, where lines were done here and won't be there. Gives these. */
  rebuild() {
    const lines = this.#lines, first = this.next - lines.length;
    const lost = this.ahead;
    this.ahead = [];
    lines.forEach((line, k) => this.#run(line, first + k));
    return lost.map(({ line }) => line);
  }

  /**
   * A line of this writer at its seat, done here at once. What is accepted is to be sent.
   * @param {object} line
   * @returns {{ reply: string, message: object | null }}
   */
  do(line) {
    const reply = this.ask({ ...line, site: this.site });
    if (!accepted(reply)) return { reply, message: null };
    this.#note(line, reply);
    const message = { n: ++this.n, since: this.since, line };
    this.ahead.push({ n: this.n, line });
    return { reply, message };
  }

  /** The raw reply to a line that changes nothing, or to any one at a site of its own. */
  ask(line) {
    return this.#world.line(JSON.stringify({ site: this.shown, ...line }));
  }

  /** What changed in the list that is shown, since it was last asked for: patches, and the runs of items that came. */
  changes() {
    const patches = JSON.parse(this.ask({ do: "changes" }).split(" ")[2]);
    return { patches, came: holes(patches).map(([from, to]) => [from, JSON.parse(this.ask({ do: "data", from, to }).slice(3))]) };
  }

  /** Whether the list that is shown is the committed page. */
  get isCommitted() {
    return this.#pending.length === 0;
  }

  get hasUnsent() {
    return this.#unsent > 0;
  }

  #run(line, number) {
    const kept = line.log ?? {};
    if (line.do === "open") return this.#opened(line, number);
    if (line.site === this.site && line.do !== "serve" && this.ahead.length > 0 && kept.n === this.ahead[0].n) {
      this.ahead.shift();
      return [];
    }
    const reply = this.ask(line);
    if (kept.join === this.holder) this.#seated(line.site, number);
    else if (line.site === this.site && kept.leave) return this.#unseated();
    // Where the service speaks for a site with lines ahead, as before it takes the seat back, all begins anew below.
    else if (accepted(reply) && line.do === "serve") this.#served(line, reply);
    else if (accepted(reply) && line.site === this.site) this.#note(line, reply);
    return [];
  }

  #opened(line, number) {
    this.#world = this.#makeWorld();
    this.worlds++;
    this.ask(line);
    this.entries = 0;
    this.#pending = [];
    this.#unsent = 0;
    this.undoing = new Undoing();
    const site = line.log.seats.indexOf(this.holder);
    const done = line.log.done[this.holder] ?? 0;
    const lost = this.ahead.filter(({ n }) => n > done).map((one) => one.line);
    this.ahead = [];
    [this.site, this.since] = site < 0 ? [null, -1] : [site, number];
    this.n = Math.max(this.n, done);
    return lost;
  }

  #seated(site, number) {
    [this.site, this.since] = [site, number];
    this.#pending = [];
    this.#unsent = 0;
  }

  #unseated() {
    if (this.ahead.length > 0) return this.rebuild();
    [this.site, this.since] = [null, -1];
    return [];
  }

  #served(line, reply) {
    const count = Number(reply.split(" ")[1]);
    if (line.site === this.site && count) this.undoing.committed(this.entries, this.#pending.slice(0, count));
    this.entries += count;
    this.ask({ do: "take", site: VIEW });
  }

  // What is pending after a line of this writer.
  #note(line, reply) {
    const words = reply.split(" ");
    if (line.do === "take" && words[1] === "ack") this.#pending.splice(0, Number(words[2]));
    else if (line.do === "take") {
      const count = Number(words[4]);
      if (count) this.dropped.push(...this.#pending.splice(-count));
      this.#unsent = Math.min(this.#unsent, this.#pending.length);
    } else if (line.do === "send") this.#unsent = 0;
    else if (line.do !== "select") {
      this.#pending.push(line);
      this.#unsent++;
    }
  }
}

// The runs of items that patches put in, in the list as it is after all of them.
function holes(patches) {
  let runs = [];
  for (const [at, removed, inserted] of patches) {
    const end = at + removed, shift = inserted - removed;
    const kept = runs.flatMap(([from, to]) => [[from, Math.min(to, at)], [Math.max(from, end), to]].filter(([a, b]) => a < b));
    runs = kept.map(([from, to]) => (from >= end ? [from + shift, to + shift] : [from, to]));
    if (inserted) runs.push([at, at + inserted]);
    runs.sort((a, b) => a[0] - b[0]);
  }
  return runs.reduce((joined, [from, to]) => {
    const last = joined.at(-1);
    if (last && last[1] === from) last[1] = to;
    else joined.push([from, to]);
    return joined;
  }, []);
}
