// A client of vemodel for Node: the core runs in this process, as a module, or as a program of its own. Lines may be sent ahead; each gets
// a promise, and they are answered in their order. The types, and what each method does, are in index.d.ts.
import { existsSync } from "node:fs";
import { fileURLToPath } from "node:url";
import { Queue } from "../web/queue.js";
import { Runner } from "../web/runner.js";
import { PACKED, compile } from "./module.js";
import { Program } from "./program.js";

export { Ended, Refused } from "../web/errors.js";
export { World } from "../web/world.js";
export { compile } from "./module.js";

export class Core extends Queue {
  constructor(options = {}) {
    const { program, module } = chosen(typeof options === "string" ? { program: options } : options);
    super((told) => (program ? new Program(program, told) : new Runner(compile(module), told)));
  }

  static async start(options) {
    const core = new Core(options);
    await core.line(""); // is refused, and so changes nothing
    return core;
  }
}

// What is given; else what the environment names; else the module of the package, or the program of the repository, round this file.
function chosen({ program, module }) {
  if (program && module) throw new TypeError("a core is over a program or over a module");
  if (program) return { program: program === true ? ownProgram() : program };
  if (module) return { module };
  const { VEMODEL, VEMODEL_MODULE } = process.env;
  if (VEMODEL) return { program: VEMODEL };
  if (VEMODEL_MODULE) return { module: VEMODEL_MODULE };
  return existsSync(PACKED) ? { module: PACKED } : { program: ownProgram() };
}

// The package's program for this machine, or bin/vemodel of the repository.
function ownProgram() {
  const machine = { x64: "x86_64", arm64: "aarch64" }[process.arch];
  const places = [`../native/vemodel-${machine}-${process.platform}`, "../../bin/vemodel"];
  const found = places.map((it) => fileURLToPath(new URL(it, import.meta.url))).find((it) => existsSync(it));
  if (!found) throw new Error("no vemodel for this machine: give the program's path or the module's, or set VEMODEL to it");
  return found;
}
