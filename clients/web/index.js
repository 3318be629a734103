// A client of vemodel for browsers: the core runs in a worker, or in the page itself, and no server is asked. Its methods are those of
// the client for Node. The types, and what each method does, are in index.d.ts.
import { Ended } from "./errors.js";
import { Queue } from "./queue.js";
import { Runner } from "./runner.js";

export { Ended, Refused } from "./errors.js";
export { World, compile } from "./world.js";

export class Core extends Queue {
  constructor({ module, worker = true } = {}) {
    const source = typeof module === "string" || module instanceof URL ? new URL(module, document.baseURI).href : module;
    super((told) => (worker ? new InWorker(source, told) : new Runner(source, told)));
  }

  static async start(options) {
    const core = new Core(options);
    await core.line(""); // is refused, and so changes nothing
    return core;
  }
}

// A bundler may have left the file behind.
const NO_WORKER = "worker.js, or what it imports, isn't beside the client, or may not run: { worker: false } goes without it";

class InWorker {
  #worker = new Worker(new URL("worker.js", import.meta.url), { type: "module" });

  constructor(module, told) {
    this.#worker.onmessage = ({ data }) => {
      if ("reply" in data) told.reply(data.reply);
      else if ("ended" in data) told.end(new Ended(data.ended, { cause: data.cause }));
      else if (data.isEnd) told.end(data.failed);
      else told.fail(data.failed);
    };
    this.#worker.onerror = ({ message }) => told.end(message ? new Ended("trap", { cause: message }) : new Error(NO_WORKER));
    this.#worker.postMessage({ module });
  }

  send(line) {
    this.#worker.postMessage({ line });
  }

  close() {
    this.#worker.postMessage({});
  }

  stop() {
    this.#worker.terminate();
  }
}
