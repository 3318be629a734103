// A fault of the module ends the world, and the module itself takes no call after it.
// usage: node clients/web/test/trap.mjs MODULE
import assert from "node:assert/strict";
import { readFileSync } from "node:fs";
import { test } from "node:test";
import { Core } from "../../node/index.js";
import { World } from "../world.js";

// (module (memory (export "memory") 1)
//   (func (export "vemodel_room") (param i64) (result i64) (i64.const 1024)) (func (export "vemodel_free") (param i64))
//   (func (export "vemodel_open") (param i64) (result i32) (i32.const 1)) (func (export "vemodel_step") (param i64 i64 i64 i64) (unreachable))
//   (func (export "vemodel_reply") (param i64 i64 i64) (result i64) (i64.const 0)))
const FAULTY = moduleOf();

test("a module that meets a fault", async () => {
  const world = new World(new WebAssembly.Module(FAULTY));
  const ended = (error) => error.name === "Ended" && error.status === "trap" && error.cause instanceof WebAssembly.RuntimeError;
  assert.throws(() => world.line("{"), ended);
  assert.throws(() => world.line("{"), ended);
  assert.throws(() => world.bytes(new Uint8Array()), ended);
  const core = new Core({ module: FAULTY });
  await Promise.all([assert.rejects(core.html(), ended), assert.rejects(core.html(), ended)]);
  assert.equal((await core.ended).status, "trap");
  assert.equal(await core.close(), "trap");
});

test("the module after a fault, and without a client", () => {
  const { exports: calls } = new WebAssembly.Instance(new WebAssembly.Module(readFileSync(process.argv[2])));
  const handle = calls.vemodel_room(32n);
  new Uint8Array(calls.memory.buffer).fill(0, Number(handle), Number(handle) + 32);
  assert.equal(calls.vemodel_open(handle), 1);
  const outside = 0xffff_0000n; // no address of its memory
  assert.throws(() => calls.vemodel_step(handle + 16n, handle, outside, 100n), WebAssembly.RuntimeError);
  assert.throws(() => calls.vemodel_reply(handle, handle, 0n), WebAssembly.RuntimeError);
});

// The module above. Its types, functions, memory, exports and bodies are one section each.
function moduleOf() {
  const [I32, I64] = [0x7f, 0x7e];
  const list = (items) => [items.length, ...items.flat()];
  const named = (text) => list([...new TextEncoder().encode(text)]);
  const section = (id, items) => {
    const content = list(items);
    return [id, content.length, ...content];
  };
  const calls = [
    ["vemodel_room", [I64], [I64], [0x42, 0x80, 0x08]], // i64.const 1024
    ["vemodel_free", [I64], [], []],
    ["vemodel_open", [I64], [I32], [0x41, 1]],
    ["vemodel_step", [I64, I64, I64, I64], [], [0x00]],
    ["vemodel_reply", [I64, I64, I64], [I64], [0x42, 0]],
  ];
  return new Uint8Array([
    ...[0, 0x61, 0x73, 0x6d, 1, 0, 0, 0],
    ...section(1, calls.map(([, takes, gives]) => [0x60, ...list(takes), ...list(gives)])),
    ...section(3, calls.map((_, index) => [index])),
    ...section(5, [[0, 1]]),
    ...section(7, [[...named("memory"), 2, 0], ...calls.map(([name], index) => [...named(name), 0, index])]),
    ...section(10, calls.map(([, , , code]) => list([0, ...code, 0x0b]))),
  ]);
}
