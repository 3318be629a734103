// A core whose lines are answered elsewhere, in their order: by a program, by a worker, or by a module that is still compiled.
import { Commands } from "./commands.js";
import { Ended, checkLine } from "./errors.js";

export class Queue extends Commands {
  #answerer;
  #waiting = []; // the lines that aren't answered yet, the oldest first
  #failure; // why no line is answered any more
  #tellEnded;
  /** Resolves with why no line is answered any more, once that is so. It never rejects. */
  ended = new Promise((tell) => (this.#tellEnded = tell));

  /**
   * `start` is given what it tells: for each line in turn `reply(text)`, or `fail(error)` where it alone can't be done, and once
   * `end(error)`. It returns what answers: `send(line)`; `close()`, which ends it behind the lines that were sent; and `stop()`, which
   * ends it at once.
   */
  constructor(start) {
    super();
    this.#answerer = start({
      reply: (text) => this.#waiting.shift()?.settle("resolve", text),
      fail: (error) => this.#waiting.shift()?.settle("reject", error),
      end: (error) => this.#end(error),
    });
  }

  async line(line, { signal } = {}) {
    checkLine(line);
    signal?.throwIfAborted();
    if (this.#failure) throw this.#failure;
    return new Promise((resolve, reject) => {
      const abort = () => this.#abort(reject, signal.reason);
      const settle = (how, value) => {
        signal?.removeEventListener("abort", abort);
        ({ resolve, reject })[how](value);
      };
      signal?.addEventListener("abort", abort);
      this.#waiting.push({ settle });
      this.#answerer.send(line);
    });
  }

  async close() {
    if (!this.#failure) this.#answerer.close();
    return (await this.ended).status;
  }

  // A line that was sent can't be called back, and nobody would know what it did.
  #abort(reject, reason) {
    reject(reason);
    this.#answerer.stop();
    this.#end(new Ended("aborted"));
  }

  #end(error) {
    this.#failure ??= error;
    for (const { settle } of this.#waiting.splice(0)) settle("reject", this.#failure);
    this.#tellEnded(this.#failure);
  }
}

// For `await using`, where the engine has it.
if (Symbol.asyncDispose) {
  Queue.prototype[Symbol.asyncDispose] = async function () {
    await this.close();
  };
}
