// Asks a module all scripts of examples/, and of the folders that are given, and compares the replies byte for byte; and its version.
// usage: node clients/web/test/scripts.mjs MODULE [FOLDER..]
import { readFileSync } from "node:fs";
import { World, compile } from "../world.js";
import { EXAMPLES, scripts } from "./files.mjs";

const [path, ...folders] = process.argv.slice(2);
const module = await compile(readFileSync(path));
let count = 0, lineCount = 0;
for (const folder of [EXAMPLES, ...folders]) {
  for (const script of scripts(folder)) {
    check(script);
    count += 1;
    lineCount += script.replies.length;
  }
}
const parts = readFileSync(new URL("../../../VERSION", import.meta.url), "utf8").split(".");
const wanted = parts.reduce((number, part) => 256 * number + Number(part), 0);
const version = new WebAssembly.Instance(module).exports.vemodel_version();
if (version !== wanted) {
  console.log(`scripts: the module's version is ${version}, and not ${wanted}`);
  process.exit(1);
}
console.log(`scripts: ${count} of ${lineCount} lines, byte for byte: ok`);

function check({ name, lines, replies }) {
  const world = new World(module);
  replies.forEach((wanted, at) => {
    const got = world.bytes(lines[at]);
    if (Buffer.compare(got, wanted) === 0) return;
    console.log(`scripts: ${name}:${at + 1} is answered ${Buffer.from(got)}, and not ${wanted}`);
    process.exit(1);
  });
  world.close();
}
