import type { Lines } from "../web/values.js";

export type { Commands } from "../web/commands.js";
export * from "../web/values.js";

/**
 * A core with one page open at a time, for one or more sites: the module in this thread, or the program beside. What its methods do and
 * how they are refused is said at the Core for browsers, in ../web/index.d.ts.
 */
export class Core {
  /**
   * Without words: the program that VEMODEL names, else the module that VEMODEL_MODULE names, else the package's module, else bin/vemodel of
   * the repository round this file. A string is a program's path.
   */
  constructor(options?: string | CoreOptions);
  /** The same, and waits until it is there. Rejects where it can't be started. */
  static start(options?: string | CoreOptions): Promise<Core>;
}
export interface Core extends Lines {}

export interface CoreOptions {
  /** The program's path; true for the package's own, or bin/vemodel of the repository. */
  program?: string | true;
  /** The module, its bytes, or where it is: a path or a URL. */
  module?: URL | string | BufferSource | WebAssembly.Module;
}
