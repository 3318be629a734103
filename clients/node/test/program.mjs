// What becomes of a core whose program ends, or whose call is aborted.
// usage: node clients/node/test/program.mjs
import assert from "node:assert/strict";
import { chmodSync, mkdtempSync, rmSync, writeFileSync } from "node:fs";
import { tmpdir } from "node:os";
import { join } from "node:path";
import { after, test } from "node:test";
import { Core, Ended } from "../index.js";

const folder = mkdtempSync(join(tmpdir(), "vemodel-"));
after(() => rmSync(folder, { recursive: true }));

// A core whose program runs these shell commands.
function running(commands) {
  const path = join(folder, "program");
  writeFileSync(path, `#!/bin/sh\n${commands}\n`);
  chmodSync(path, 0o755);
  return new Core(path);
}

test("statuses in words, to each line that waits and to each later one", async () => {
  const core = running("read -r line; exit 6");
  const ended = { name: "Ended", status: 6, message: "the core ended with status 6: there was no memory" };
  await Promise.all([assert.rejects(core.html(), ended), assert.rejects(core.html(), ended)]);
  await assert.rejects(core.html(), ended);
  assert.equal((await core.ended).status, 6);
  assert.equal(await core.close(), 6);
});

test("a signal of the system", async () => {
  await assert.rejects(running("kill -9 $$").html(), { status: null, signal: "SIGKILL", message: "the core ended by SIGKILL" });
});

test("a reply that breaks off", async () => {
  await assert.rejects(running("read -r line; printf 'ok 1'; exit 4").html(), Ended);
});

test("a program that isn't there", async () => {
  await assert.rejects(new Core("/no/such/program").html(), { code: "ENOENT" });
  await assert.rejects(Core.start({ program: "/no/such/program" }), { code: "ENOENT" });
});

test("a call that is aborted ends the core, and those that wait", async () => {
  const core = running("read -r line; echo ok 6; exec sleep 60");
  assert.equal(await core.open({ page: "<p>ab</p>" }), 6);
  const late = core.html({}, { signal: AbortSignal.timeout(20) });
  const behind = core.html();
  const ended = { name: "Ended", status: "aborted" };
  await Promise.all([assert.rejects(late, { name: "TimeoutError" }), assert.rejects(behind, ended)]);
  await assert.rejects(core.html(), ended);
  assert.equal(await core.close(), "aborted");
});

test("the program that the environment names", async () => {
  process.env.VEMODEL = "/no/such/program";
  try {
    await assert.rejects(new Core().html(), { code: "ENOENT" });
  } finally {
    delete process.env.VEMODEL;
  }
});
