// What the methods take and give, and the errors, in Node and in browsers.
import type { Commands } from "./commands.js";

// As TypeScript has them from 5.2 on.
declare global {
  interface SymbolConstructor {
    readonly asyncDispose: unique symbol;
  }
  interface AsyncDisposable {
    [Symbol.asyncDispose](): PromiseLike<void>;
  }
}

/** What answers lines, and has each command as a method. Each method sends one line at once, and gives a promise of its reply's value. */
export interface Lines extends Commands, AsyncDisposable {
  /** The raw reply to a raw line, a refusal too. Rejects with a RangeError where it is no line. */
  line(line: string, options?: Options): Promise<string>;
  /** What the method gives that is called as `do` is. */
  ask(command: Command, options?: Options): Promise<unknown>;
  /** Resolves with why no line is answered any more, once that is so: an Ended, or what kept it from starting. It never rejects. */
  readonly ended: Promise<Error>;
  /** Ends the core behind the lines that were sent. Gives its status; nothing where it couldn't be started. */
  close(): Promise<Ended["status"] | undefined>;
}

/** Of a call. Where the signal is aborted after the line was sent, the call is rejected with its reason, and the core ends. */
export interface Options {
  signal?: AbortSignal;
}

/**
 * The core refused a command, which then changed nothing. `words` and `numbers` are those after `no`, and `word` is the first word:
 * `no html bad_tag 1` has the words `html` and `bad_tag`, and the number 1.
 */
export class Refused extends Error {
  readonly word: string;
  readonly words: string[];
  readonly numbers: number[];
}

/**
 * No line is answered any more. `status` is the program's exit status or what it would be of the module: 0, it was closed; 6, there was
 * no memory. It is "trap" where the module met a fault, "aborted" where a call was aborted before it was answered, and null where a
 * signal of the system, which `signal` names, ended the program.
 */
export class Ended extends Error {
  readonly status: number | null | "trap" | "aborted";
  readonly signal: string | null;
}

/** Compiles the module: once, for all worlds. Without a source it is vemodel.wasm beside this file. */
export function compile(source?: URL | string | BufferSource | WebAssembly.Module): Promise<WebAssembly.Module>;

/**
 * A world in this thread, without promises. Its memory grows up to 4 GiB and never shrinks: let go of the world to give it back.
 */
export class World {
  /** Throws an Ended of status 6 where there is no memory. */
  constructor(module: WebAssembly.Module);
  /**
   * The raw reply to a raw line, a refusal too. Throws a RangeError, and the world stays as it was, where the line holds a newline or
   * half of a surrogate pair, or there is no memory for it. Throws Ended.
   */
  line(line: string): string;
  /** The same in bytes, without the newline; they may be no UTF-8. */
  bytes(line: Uint8Array): Uint8Array;
  /** How many bytes of memory the instance has. */
  readonly size: number;
  /** Gives the world up. Closing it again does nothing. */
  close(): void;
}

/** Which site is asked, 0 if absent. */
export interface Site {
  site?: number;
}

/** Names, each once, with their values. */
export type Attributes = [name: string, value: string][];

export interface Wrapper {
  kind: string;
  attrs?: Attributes;
}

export type Direction = "back" | "ahead";
export type Step = "cluster" | "word";

/** A command as docs/FORMAT.md spells it. */
export interface Command {
  do: string;
  [member: string]: unknown;
}

/** An operation of `apply` as docs/FORMAT.md spells it. */
export type Operation = { retain: number } | { remove: number; insert: Item[] } | { attr: string; to: string | null };

/** What `data` shows and `apply` takes: a text, a text with marks, an opening or a closing. */
export type Item = string | [text: string, marks: [tag: string, attrs: Attributes][]] | { [member: string]: unknown };

/** A node: its kind, and then its children, where a number is a run of so many characters. */
export type Tree = [kind: string, ...children: (Tree | number)[]];

export interface Node {
  kind: string;
  begin: number;
  end: number;
  /** `content` where text may stand, `structural` where nodes may, `inside` in a leaf. */
  state: "content" | "structural" | "inside";
}

export interface Reference {
  place: number;
  group: string;
  key: string;
  number: number;
  carrier: boolean;
  /** The place of its text in the internal list, if it is there. */
  body: number | null;
}

export interface Selection {
  anchor: number;
  focus: number;
}

/** What changed in a list: its length now, and patches, each over the list that those before it left. */
export interface Changes {
  length: number;
  patches: Patch[];
}

/** So many items went at an offset, and so many came there. */
export interface Patch {
  at: number;
  removed: number;
  inserted: number;
}

export interface Grid {
  rows: number;
  columns: number;
  cells: { place: number; row: number; column: number; rows: number; columns: number }[];
}

/**
 * Of so many changes of a submission the server committed the first `accepted`. Where the next one conflicts: the range of the
 * committed change and that of the submitted one.
 */
export interface Served {
  accepted: number;
  of: number;
  conflict: [[number, number], [number, number]] | null;
}

/** How many changes of others the site took and how many of its own it dropped for them, or how many of its own were accepted. */
export type Taken = { foreign: number; dropped: number } | { accepted: number };
