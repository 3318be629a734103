// The scripts of a folder, with the replies that stand beside them.
import { readFileSync, readdirSync } from "node:fs";
import { join } from "node:path";
import { fileURLToPath } from "node:url";

export const EXAMPLES = fileURLToPath(new URL("../../../examples", import.meta.url));
const NEWLINE = 10;

/** Each script below a folder: its name, and its lines and replies as bytes. */
export function scripts(folder = EXAMPLES) {
  const names = readdirSync(folder, { recursive: true }).filter((it) => it.endsWith(".jsonl"));
  return names.sort().map((name) => ({
    name,
    lines: linesOf(readFileSync(join(folder, name))),
    replies: linesOf(readFileSync(join(folder, name.replace(/jsonl$/, "replies")))),
  }));
}

/** The same as texts, each line with its reply. */
export function rowsOf({ lines, replies }) {
  return replies.map((reply, at) => [lines[at].toString(), reply.toString()]);
}

// A last piece without a newline is a line where it isn't empty.
function linesOf(bytes) {
  const lines = [];
  let from = 0;
  for (let at; (at = bytes.indexOf(NEWLINE, from)) >= 0; from = at + 1) lines.push(bytes.subarray(from, at));
  return from < bytes.length ? [...lines, bytes.subarray(from)] : lines;
}
