// A world of the module, in this thread: a line in, its reply out. The module imports nothing. It is compiled once, and each World is an
// instance of it with a memory of its own.
import { Ended, checkLine } from "./errors.js";

const DONE = 0, MEMORY = 6; // the status of a step; and of the program that had no memory
const NEWLINE = 10;
const LEAST = 4096; // bytes of the buffer that lines and replies go through
const LONG = 1 << 16; // a line of so many UTF-16 units is spelled first, and isn't given the room for three bytes of each
const encoder = new TextEncoder(), decoder = new TextDecoder("utf-8", { ignoreBOM: true });

/**
 * Compiles the module: once, for all worlds.
 * @param {URL | string | BufferSource | WebAssembly.Module} [source] vemodel.wasm beside this file, if absent
 * @returns {Promise<WebAssembly.Module>}
 */
export async function compile(source = new URL("vemodel.wasm", import.meta.url)) {
  if (source instanceof WebAssembly.Module) return source;
  if (ArrayBuffer.isView(source) || source instanceof ArrayBuffer) return WebAssembly.compile(source);
  const response = await fetch(source);
  if (!response.ok) throw new Error(`${source} is answered ${response.status}: give the module's address`);
  const isNamed = response.headers.get("content-type")?.startsWith("application/wasm"); // else it can't be compiled while it comes
  return isNamed ? WebAssembly.compileStreaming(response) : WebAssembly.compile(await response.arrayBuffer());
}

export class World {
  #calls;
  #memory;
  #bytes; // a view of the memory
  #handle;
  #told; // where a step tells its status and the reply's length
  #buffer = 0n;
  #room = 0; // bytes of the buffer
  #failure;

  constructor(module) {
    const { memory, ...calls } = new WebAssembly.Instance(module).exports;
    this.#calls = calls;
    this.#memory = memory;
    this.#handle = calls.vemodel_room(32n); // the handle, which begins as zeros, and what a step tells
    if (!this.#handle) throw new Ended(MEMORY);
    this.#told = this.#handle + 16n;
    this.#view().fill(0, Number(this.#handle), Number(this.#handle) + 32);
    if (!this.#fits(LEAST) || !calls.vemodel_open(this.#handle)) throw new Ended(MEMORY);
  }

  /** How many bytes the instance holds. They never become fewer: let go of the world for that. */
  get size() {
    return this.#memory?.buffer.byteLength ?? 0;
  }

  /** The raw reply to a raw line. */
  line(line) {
    checkLine(line);
    if (this.#failure) throw this.#failure;
    if (line.length > LONG) return decoder.decode(this.#answered(encoder.encode(line)));
    this.#makeRoom(3 * line.length);
    // A view of all the memory behind it would be too long for engines, where that is over 2 GiB.
    const begin = Number(this.#buffer);
    const { written } = encoder.encodeInto(line, this.#view().subarray(begin, begin + this.#room));
    return decoder.decode(this.#stepped(written));
  }

  /** The same in bytes, which may be no UTF-8. */
  bytes(line) {
    if (line.includes(NEWLINE)) throw new RangeError("a line holds no newline");
    if (this.#failure) throw this.#failure;
    return this.#answered(line).slice();
  }

  /** Gives the world up. Closing it again does nothing. */
  close() {
    this.#failure ??= new Ended(0);
    this.#calls = this.#memory = this.#bytes = undefined;
  }

  #answered(line) {
    this.#makeRoom(line.length);
    this.#view().set(line, Number(this.#buffer));
    return this.#stepped(line.length);
  }

  // The bytes of the reply to so many bytes of the buffer, where they lie until the next call. A trap may leave half of a change, so
  // nothing is asked after it; nor where the reply finds no room.
  #stepped(length) {
    try {
      this.#calls.vemodel_step(this.#told, this.#handle, this.#buffer, BigInt(length));
      const told = new DataView(this.#memory.buffer, Number(this.#told), 16);
      if (told.getUint32(0, true) !== DONE || !this.#fits(Number(told.getBigUint64(8, true)))) throw new Ended(MEMORY);
      const count = Number(this.#calls.vemodel_reply(this.#handle, this.#buffer, BigInt(this.#room)));
      return this.#view().subarray(Number(this.#buffer), Number(this.#buffer) + count);
    } catch (error) {
      this.#failure = error instanceof Ended ? error : new Ended("trap", { cause: error });
      throw this.#failure;
    }
  }

  // Nothing was asked yet where a line finds no room, so the world stays.
  #makeRoom(length) {
    if (!this.#fits(length)) throw new RangeError(`there is no memory for a line of ${length} bytes; nothing was changed`);
  }

  // Whether the buffer has room for so many bytes, or a new one could be had.
  #fits(length) {
    if (length <= this.#room) return true;
    if (this.#buffer) this.#calls.vemodel_free(this.#buffer);
    const room = length + Math.ceil(length / 4);
    this.#buffer = this.#calls.vemodel_room(BigInt(room));
    this.#room = this.#buffer ? room : 0;
    return this.#buffer !== 0n;
  }

  // The memory, which is another buffer once it has grown.
  #view() {
    if (this.#bytes?.buffer !== this.#memory.buffer) this.#bytes = new Uint8Array(this.#memory.buffer);
    return this.#bytes;
  }
}

// For `using`, where the engine has it.
if (Symbol.dispose) World.prototype[Symbol.dispose] = World.prototype.close;
