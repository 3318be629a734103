// What memory a world of the module takes: pages opened in place of one another and lines that are answered don't make it grow on, and
// where there is none left the world ends by saying so.
// usage: node clients/web/test/memory.mjs MODULE
import assert from "node:assert/strict";
import { readFileSync } from "node:fs";
import { test } from "node:test";
import { World } from "../world.js";

const bytes = readFileSync(process.argv[2]);
const module = new WebAssembly.Module(bytes);
const PAGE = 65_536, MOST = 256; // what a memory is counted in, and how many of them it may have here
const SENTENCE = "<p>Some words in a line of <b>text</b> that go on.</p>";
const opening = (count) => JSON.stringify({ do: "open", page: SENTENCE.repeat(count) });

test("pages opened in place of one another, and edits that are undone", () => {
  const world = new World(module);
  const round = () => {
    assert.match(world.line(opening(2000)), /^ok /);
    for (let k = 0; k < 200; k++) {
      assert.match(world.line('{"do":"text","at":5,"text":"x"}'), /^ok /);
      assert.match(world.line('{"do":"html"}'), /^ok /);
      assert.match(world.line('{"do":"undo"}'), /^ok /);
    }
  };
  round();
  round();
  const before = world.size;
  for (let k = 0; k < 10; k++) round();
  console.log(`memory: ${before} bytes after two pages of ${opening(2000).length} bytes, ${world.size} after ten more`);
  assert.ok(world.size <= before * 1.125, "it grew by more than one step");
});

test("a memory that can't grow", () => {
  const world = new World(new WebAssembly.Module(limited(bytes, MOST)));
  assert.match(world.line(opening(100)), /^ok /);
  // A line that finds no room is refused before anything is asked.
  assert.throws(() => world.line(" ".repeat(2 * MOST * PAGE)), RangeError);
  assert.match(world.line('{"do":"html"}'), /^ok "<p>Some/);
  const ended = { name: "Ended", status: 6 };
  assert.throws(() => {
    for (let count = 200; ; count += 200) world.line(opening(count));
  }, ended);
  assert.throws(() => world.line('{"do":"html"}'), ended);
  assert.ok(world.size <= MOST * PAGE);
});

test("a memory of over 2 GiB", () => {
  const { Instance } = WebAssembly;
  let room;
  WebAssembly.Instance = function (it) {
    const made = new Instance(it);
    room = made.exports.vemodel_room;
    return made;
  };
  const world = new World(module);
  WebAssembly.Instance = Instance;
  assert.ok(room(2300n << 20n)); // nobody writes there, so it takes addresses alone
  for (const page of [opening(10), opening(10_000)]) { // a line behind it, too
    assert.match(world.line(page), /^ok /);
    assert.match(world.line('{"do":"text","at":1,"text":"é"}'), /^ok /);
    assert.match(world.line('{"do":"html"}'), /^ok "<p>éSome/);
  }
});

// The module with a memory of at most so many pages of 64 KiB.
function limited(module, most) {
  const MEMORY = 5;
  const pieces = [module.subarray(0, 8)];
  for (let at = 8; at < module.length; ) {
    const [length, body] = numberAt(module, at + 1);
    pieces.push(module[at] === MEMORY ? limits(module, body, most) : module.subarray(at, body + length));
    at = body + length;
  }
  return Buffer.concat(pieces);
}

// A section with the one memory that the section at `body` has, but no more than so many pages.
function limits(module, body, most) {
  const [least] = numberAt(module, body + 2); // behind the count of memories and the flags
  const content = [1, 1, ...spelled(least), ...spelled(most)];
  return Buffer.from([5, ...spelled(content.length), ...content]);
}

// The number in LEB128 that begins here, and where it ends.
function numberAt(module, at) {
  let number = 0;
  for (let shift = 0; ; shift += 7) {
    const byte = module[at++];
    number |= (byte & 127) << shift;
    if (byte < 128) return [number >>> 0, at];
  }
}

function spelled(number) {
  return number < 128 ? [number] : [(number & 127) | 128, ...spelled(number >>> 7)];
}
