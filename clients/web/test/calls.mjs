// The commands over the module and over the program, and the edges of both.
// usage: node clients/web/test/calls.mjs [MODULE]: without a module, the program alone
import assert from "node:assert/strict";
import { readFileSync } from "node:fs";
import { describe, test } from "node:test";
import { Core, World, compile } from "../../node/index.js";
import { CASES, faults, faultsOfScript } from "./cases.js";
import { rowsOf, scripts } from "./files.mjs";

const path = process.argv[2];
const OVER = { "the program": { program: process.env.VEMODEL || true }, ...(path && { "the module": { module: path } }) };

for (const [name, options] of Object.entries(OVER)) {
  describe(`over ${name}`, () => {
    // Runs a test with a core of its own.
    const withCore = (what, run) =>
      test(what, async () => {
        const core = new Core(options);
        try {
          await run(core);
        } finally {
          await core.close();
        }
      });

    for (const [what, steps] of Object.entries(CASES)) {
      withCore(what, async (core) => assert.deepEqual(await faults(core, steps), []));
    }
    for (const script of scripts()) {
      const rows = rowsOf(script);
      withCore(`every raw line of ${script.name}, sent ahead`, async (core) => {
        assert.deepEqual(await Promise.all(rows.map(([line]) => core.line(line))), rows.map(([, reply]) => reply));
      });
      withCore(`every command of ${script.name}`, async (core) => assert.deepEqual(await faultsOfScript(core, rows), []));
    }

    withCore("a signal that is aborted before nothing is sent", async (core) => {
      await core.open({ page: "<p>ab</p>" });
      await assert.rejects(core.text({ at: 1, text: "X" }, { signal: AbortSignal.abort() }), { name: "AbortError" });
      assert.equal(await core.html({}, { signal: new AbortController().signal }), "<p>ab</p>");
    });

    test("lines that were sent are answered before a core is closed, and none after", async () => {
      const core = new Core(options);
      const replies = [core.open({ page: "<p>ab</p>" }), core.html()];
      assert.equal(await core.close(), 0);
      assert.deepEqual(await Promise.all(replies), [6, "<p>ab</p>"]);
      await assert.rejects(core.html(), { name: "Ended", status: 0 });
      assert.equal((await core.ended).status, 0);
      assert.equal(await core.close(), 0);
    });

    test("a core is closed at the end of its scope", async () => {
      const core = await Core.start(options);
      await core[Symbol.asyncDispose]();
      await assert.rejects(core.html(), { status: 0 });
    });
  });
}

test("a module that isn't there", async () => {
  await assert.rejects(Core.start({ module: "/no/such/module.wasm" }), { code: "ENOENT" });
  await assert.rejects(new Core({ module: new Uint8Array([1, 2]) }).html(), { name: "CompileError" });
  assert.throws(() => new Core({ module: "x", program: "y" }), TypeError);
});

describe("a world", { skip: path ? false : "no module" }, async () => {
  const module = path && (await compile(readFileSync(path)));

  test("texts of every length, and signs of every kind", () => {
    const world = new World(module);
    for (const length of [0, 1, 1300, 4095, 4096, 4097, 65_500, 65_536, 100_000, 3_000_000]) {
      const page = `<p>${"x".repeat(length)}</p>`;
      assert.equal(world.line(JSON.stringify({ do: "open", page })), `ok ${length + 4}`);
      assert.equal(world.line('{"do":"html"}'), `ok "${page}"`);
    }
    for (const sign of ["\u{1f600}", "\u2028", "\ufeff", "é"]) {
      assert.equal(world.line(`{"do":"open","page":"<p>${sign.repeat(30_000)}</p>"}`), "ok 30004");
      assert.equal(world.line('{"do":"data","from":1,"to":3}'), `ok ["${sign.repeat(2)}"]`);
    }
    assert.equal(world.line(" ".repeat(8_388_609)), "no line_too_long 8388609");
  });

  test("lines of bytes", () => {
    const world = new World(module);
    const text = (bytes) => new TextDecoder().decode(world.bytes(bytes));
    assert.equal(text(new Uint8Array([0xff])), "no bad_json");
    assert.equal(text(new TextEncoder().encode('{"do":"open","page":"é"}')), "ok 5");
    assert.throws(() => world.bytes(new Uint8Array([10])), RangeError);
    assert.throws(() => world.line("\n"), RangeError);
    assert.throws(() => world.line("\ud800"), RangeError);
    assert.equal(world.line('{"do":"html"}'), 'ok "é"'); // it stays
  });

  test("closed, twice", () => {
    const world = new World(module);
    assert.ok(world.size > 1 << 20);
    world.close();
    world.close();
    assert.throws(() => world.line(""), { name: "Ended", status: 0 });
    assert.equal(world.size, 0);
  });
});
