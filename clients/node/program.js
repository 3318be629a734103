// The program as a co-process: lines go through one pipe, and their replies come through another, in their order.
import { spawn } from "node:child_process";
import { Ended } from "../web/errors.js";

const NEWLINE = 10;

export class Program {
  #run;
  #told;
  #parts = []; // of the reply that is coming

  /** Starts the program at a path. What it tells is said at Queue. */
  constructor(path, told) {
    this.#told = told;
    // Detached, since a terminal's Ctrl-C is for whoever asks the program. It ends where its input does.
    this.#run = spawn(path, ["run"], { stdio: ["pipe", "pipe", "inherit"], detached: true });
    this.#run.stdout.on("data", (bytes) => this.#read(bytes));
    this.#run.stdin.on("error", () => {}); // it ended, which "close" tells with its status
    this.#run.on("error", (error) => told.end(error)); // it can't be started
    this.#run.on("close", (status, signal) => told.end(new Ended(status, { signal })));
  }

  send(line) {
    this.#run.stdin.write(line + "\n");
  }

  close() {
    this.#run.stdin.end();
  }

  stop() {
    this.#run.kill("SIGKILL");
  }

  // Replies end at newlines alone: a text in them may hold any other sign that ends a line elsewhere.
  #read(bytes) {
    let from = 0;
    for (let at; (at = bytes.indexOf(NEWLINE, from)) >= 0; from = at + 1) {
      const reply = Buffer.concat([...this.#parts, bytes.subarray(from, at)]).toString();
      this.#parts = [];
      this.#told.reply(reply);
    }
    if (from < bytes.length) this.#parts.push(bytes.subarray(from));
  }
}
