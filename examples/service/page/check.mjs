// node --experimental-websocket check.mjs PROGRAM MODULE: several writers on one page of a service, each with a replica of its own. They
// type at once, the service is killed and started again, and there are more of them than seats. In the end all show the page that the
// service has, and all that was typed is in it.
import { spawn } from "node:child_process";
import { once } from "node:events";
import { mkdtempSync, rmSync } from "node:fs";
import { readFile } from "node:fs/promises";
import { createServer } from "node:net";
import { tmpdir } from "node:os";
import { join } from "node:path";
import { fileURLToPath } from "node:url";
import { World, compile } from "../../../clients/web/world.js";
import { onceMore } from "../../editor/browser.mjs";
import { branches, erased, parted, typed } from "./edits.js";
import { Writer, single } from "./writer.js";

const PATIENCE = 60_000; // milliseconds, on a busy machine
const WRITERS = 10;
const WORDS = 12; // that each of them types
const [program, module] = process.argv.slice(2);

const rest = (milliseconds) => new Promise((next) => setTimeout(next, milliseconds));

async function until(what, holds) {
  for (const end = Date.now() + PATIENCE; !(await holds()); await rest(50)) {
    if (Date.now() > end) throw new Error(`waited in vain until ${what}`);
  }
}

function sure(holds, what) {
  if (!holds) throw new Error(what);
}

class Service {
  #folder = mkdtempSync(join(tmpdir(), "vemodel-"));
  #process;

  async begin() {
    const free = createServer().listen(0, "127.0.0.1");
    await once(free, "listening");
    this.address = `127.0.0.1:${free.address().port}`;
    free.close();
    await this.start();
  }

  async start() {
    const server = fileURLToPath(new URL("../server.py", import.meta.url));
    const words = ["--listen", this.address, "--log", join(this.#folder, "pages.sqlite"), "--program", program];
    const busy = ["--turn", "0.2", "--cut", "6000", "--quiet", "0.3"];
    this.#process = spawn("/usr/bin/python3", [server, ...words, ...busy], { stdio: ["ignore", "pipe", "inherit"] });
    await once(this.#process.stdout, "data");
  }

  async stop(signal) {
    if (this.#process.exitCode !== null || this.#process.signalCode !== null) return; // it has ended
    this.#process.kill(signal);
    await once(this.#process, "exit");
  }

  get(path, words) {
    return fetch(`http://${this.address}/pages/${path}`, words);
  }

  async end() {
    await this.stop("SIGTERM");
    rmSync(this.#folder, { recursive: true });
  }
}

const textOf = (items) => items.map((item) => (Array.isArray(item) ? item[0] : item.open ? "\n" : "")).join("");

// Somebody who types words of one letter, now and then erases and types again, and says nothing else.
class Person {
  notices = [];

  constructor(url, makeWorld, letter) {
    this.letter = letter;
    const heard = { changing() {}, changed() {}, people() {}, notice: (text) => text && this.notices.push(text) };
    this.writer = new Writer(url, `a key that is of nobody but ${letter}`, makeWorld, heard);
  }

  async write() {
    await until("the page is there", () => this.writer.items.length > 0);
    for (let word = 0; word < WORDS; word++) {
      const all = branches(this.writer.items), branch = all[(word * 7 + this.letter.charCodeAt(0)) % all.length];
      this.writer.select([branch.to, branch.to]);
      for (const char of `${this.letter}${this.letter}~`) this.writer.act((it) => typed(it, char));
      this.writer.act((it) => erased(it, "back"));
      if (word % 4 === 0) this.writer.act(parted);
      await rest(100 + 400 * Math.random());
    }
  }

  get text() {
    return textOf(this.writer.items);
  }
}

async function together(service, makeWorld) {
  await service.get("page", { method: "PUT", body: "<p>Here</p><ul><li>many</li><li>write</li></ul><p>at once.</p>" });
  const url = `ws://${service.address}/pages/page/edit`;
  const people = [..."abcdefghij"].slice(0, WRITERS).map((letter) => new Person(url, makeWorld, letter));
  const writing = people.map((person) => person.write());
  await rest(1500);
  await service.stop("SIGKILL");
  await rest(500);
  await service.start();
  await Promise.all(writing);
  await until("all is said", () => people.every(({ writer }) => writer.unsaid === 0));
  await until("all show one page", () => new Set(people.map(({ text }) => text)).size === 1);
  const [{ text }] = people;
  for (const { letter, notices } of people) {
    const found = text.split(letter).length - 1 - ("Here many write at once.".split(letter).length - 1);
    sure(found === 2 * WORDS, `${letter} typed ${2 * WORDS} letters, and ${found} are there: ${notices.join("; ")}`);
  }
  const world = makeWorld(), page = await (await service.get("page")).text();
  world.line(JSON.stringify({ do: "open", page }));
  sure(textOf(single(JSON.parse(world.line('{"do":"data"}').slice(3)))) === text, "the service shows another page");
  return people;
}

async function undone(service, makeWorld) {
  await service.get("undo", { method: "PUT", body: "<p>ab</p>" });
  const [one, two] = ["x", "y"].map((letter) => new Person(`ws://${service.address}/pages/undo/edit`, makeWorld, letter));
  await until("the page is there", () => one.text === "\nab\n" && two.text === "\nab\n");
  one.writer.select([3, 3]);
  one.writer.act((it) => typed(it, "X"));
  await until("it is seen", () => two.text === "\nabX\n");
  two.writer.select([1, 1]);
  two.writer.act((it) => typed(it, "Y"));
  await until("both are seen", () => one.text === "\nYabX\n" && two.text === "\nYabX\n");
  one.writer.undo();
  await until("it is undone", () => one.text === "\nYab\n" && two.text === "\nYab\n");
  one.writer.redo();
  await until("it is done again", () => one.text === "\nYabX\n" && two.text === "\nYabX\n");
  await until("they see each other", () => one.writer.people.size === 1 && two.writer.people.size === 1);
  return [one, two];
}

const compiled = await compile(await readFile(module));
const makeWorld = () => new World(compiled);
await onceMore("writers", async () => {
  const service = new Service();
  await service.begin();
  try {
    const people = [...(await undone(service, makeWorld)), ...(await together(service, makeWorld))];
    for (const { writer } of people) writer.close();
  } finally {
    await service.end();
  }
});
console.log(`window: ok: ${WRITERS} writers with replicas, a kill, undo and redo`);
