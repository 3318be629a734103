// Sessions without a browser, over a log whose lines come late and in pieces: each does its own lines ahead of it, and in the end every copy
// of the world is what the log makes of it.
import assert from "node:assert/strict";
import { join } from "node:path";
import { pathToFileURL } from "node:url";

const STEPS = 1500, SITES = 4;
const PAGE = "<h2>On cats</h2><p>They <b>sit</b> and look.</p><ul><li>one</li><li>two</li></ul><p>The end of it.</p>";

// Numbers that are the same in every run: a linear congruence, of which the upper bits are taken.
function numbers(start) {
  let state = BigInt(start);
  return (below) => {
    state = (state * 6364136223846793005n + 1442695040888963407n) & 0xffffffffffffffffn;
    return Number(state >> 33n) % below;
  };
}

// A change that may be refused.
function change(draw, length) {
  const at = draw(length), to = at + 1 + draw(6);
  return [
    { do: "text", at, text: "abc".slice(draw(3)) },
    { do: "text", at, text: "x" },
    { do: "remove", from: at, to },
    { do: "split", at },
    { do: "mark", from: at, to, tag: "b" },
    { do: "convert", at, kind: "h3" },
    { do: "batch", cmds: [{ do: "text", at, text: "yz" }, { do: "mark", from: at, to, tag: "i" }] },
  ][draw(7)];
}

// The log as a server keeps it. What a session writes comes to it later, and its lines come to each session later.
class Log {
  lines = [];
  isThere = true;
  #core;
  #had = new Map(); // how many of a site's own lines have come

  constructor(core) {
    this.#core = core;
  }

  write() {} // the session's lines are fetched when their time has come

  fetch({ site, ahead: { from, lines } }) {
    const had = this.#had.get(site) ?? 0;
    for (const line of lines.slice(had - from)) {
      assert.match(this.#core.line(line), /^ok/, line);
      this.lines.push(line);
    }
    this.#had.set(site, Math.max(had, from + lines.length));
  }
}

export async function check(folder, World, module, start = 51) {
  const { Session } = await import(pathToFileURL(join(folder, "session.js")));
  const draw = numbers(start), first = JSON.stringify({ do: "open", page: PAGE, sites: SITES });
  const opened = () => {
    const world = new World(module);
    world.line(first);
    return world;
  };
  const log = new Log(opened());
  const people = Array.from({ length: SITES }, (_, site) => {
    const world = opened();
    return { world, session: new Session(world, site, log, []), heard: 0, numbers: [] };
  });
  const hear = (person, count) => {
    const lines = log.lines.slice(person.heard, person.heard + count);
    person.heard += lines.length;
    if (person.session.hear(lines)) note(person, person.session.turn({ lines: [] }));
  };
  const note = (person, { numbered }) => person.numbers.push(...numbered.map(({ number }) => number));
  const edit = (person) => {
    const length = Number(person.session.read({ do: "changes" }).split(" ")[1]);
    const back = draw(8) === 0 && person.numbers.length ? { do: "revoke", entry: person.numbers.pop(), live: true } : null;
    note(person, person.session.turn({ lines: [back ?? change(draw, length)] }));
  };
  for (let step = 0; step < STEPS; step++) {
    const person = people[draw(SITES)];
    [() => edit(person), () => log.fetch(person.session), () => hear(person, 1 + draw(9))][draw(3)]();
  }
  const isBusy = () => people.some(({ heard, session }) => heard < log.lines.length || session.ahead.lines.length > 0);
  while (isBusy()) {
    for (const person of people) {
      log.fetch(person.session);
      hear(person, Infinity);
    }
  }
  const made = opened();
  for (const line of log.lines) made.line(line);
  const pages = (world) => Array.from({ length: SITES }, (_, site) => world.line(JSON.stringify({ do: "html", site })));
  for (const { world } of people) assert.deepEqual(pages(world), pages(made));
  assert.equal(new Set(pages(made)).size, 1, "all sites have one page");
  return log.lines.length;
}
