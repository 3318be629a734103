// The module in Node, where it may be a file.
import { readFile } from "node:fs/promises";
import { pathToFileURL } from "node:url";
import { compile as compiled } from "../web/world.js";

/** The module of the package, where it is there. */
export const PACKED = new URL("../web/vemodel.wasm", import.meta.url);

/**
 * Compiles the module: once, for all worlds.
 * @param {URL | string | BufferSource | WebAssembly.Module} [source] a path too; the package's module if absent
 * @returns {Promise<WebAssembly.Module>}
 */
export async function compile(source = PACKED) {
  if (typeof source !== "string" && !(source instanceof URL)) return compiled(source);
  const place = URL.canParse(source) ? new URL(source) : pathToFileURL(source);
  return compiled(place.protocol === "file:" ? await readFile(place) : place);
}
