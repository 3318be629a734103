// The files of which the editor is made, by their addresses: those of page/, the client for browsers, and the core as a module.
// node files.mjs FOLDER [PAGE...] copies them, and pages, into a folder that any web server can give: then the editor works without ours.
import { copyFileSync, existsSync, mkdirSync, readdirSync } from "node:fs";
import { basename, dirname, join } from "node:path";
import { fileURLToPath } from "node:url";

export const here = (path) => fileURLToPath(new URL(path, import.meta.url));

const MODULES = [process.env.VEMODEL_MODULE, here("../../clients/web/vemodel.wasm"), here("../../release/vemodel.wasm")];

/** The module that is named, or the one that VEMODEL_MODULE names, or else that of the client or of the release. */
export function moduleOf(named) {
  const found = [named, ...MODULES].find((path) => path && existsSync(path));
  if (!found) throw new Error("no vemodel.wasm: give its path, or set VEMODEL_MODULE to it");
  return found;
}

export function filesOf(named) {
  const own = readdirSync(here("page")).map((name) => [name === "index.html" ? "/" : `/${name}`, here(`page/${name}`)]);
  const client = readdirSync(here("../../clients/web")).filter((name) => name.endsWith(".js"))
    .map((name) => [`/vemodel/${name}`, here(`../../clients/web/${name}`)]);
  return new Map([...own, ...client, ["/vemodel/vemodel.wasm", moduleOf(named)]]);
}

function copy(folder, pages) {
  const all = [...filesOf(), ...(pages.length ? pages : [here("sample.html")]).map((path) => [`/${basename(path)}`, path])];
  for (const [address, path] of all) {
    const to = join(folder, address === "/" ? "index.html" : address);
    mkdirSync(dirname(to), { recursive: true });
    copyFileSync(path, to);
  }
}

if (process.argv[1] === fileURLToPath(import.meta.url)) copy(process.argv[2], process.argv.slice(3));
