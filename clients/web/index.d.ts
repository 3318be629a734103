import type { Lines } from "./values.js";

export type { Commands } from "./commands.js";
export * from "./values.js";

/**
 * A core with one page open at a time, for one or more sites, in a worker or in the page's own thread.
 *
 * An offset is the number of items before a point. A character is one item, also where JavaScript takes two UTF-16 units for it: of a
 * text count `[...text].length`, not `text.length`.
 *
 * A method rejects with Refused where the core refuses the command, and with Ended where it ends before it replies. A method that makes
 * a change gives the length of the list after it. Members are those of docs/FORMAT.md; where the command doesn't have one of them,
 * nothing is sent, and the promise is rejected with a TypeError.
 */
export class Core {
  /** Begins at once; lines wait until the module is there. Without `module` it is vemodel.wasm beside this file. */
  constructor(options?: CoreOptions);
  /** The same, and waits until it is there. Rejects where it can't be started. */
  static start(options?: CoreOptions): Promise<Core>;
}
export interface Core extends Lines {}

export interface CoreOptions {
  module?: URL | string | BufferSource | WebAssembly.Module;
  /** Whether the core runs in a worker; true if absent. */
  worker?: boolean;
}
