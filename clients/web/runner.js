// A world that comes once its module is compiled. Lines wait for it, and are then answered in this thread.
import { World, compile } from "./world.js";
import { Ended } from "./errors.js";

export class Runner {
  #told;
  #world;
  #early = []; // what is to be done once the world is there

  /** Compiles a module's source, which may be promised. What it tells is said at Queue. */
  constructor(module, told) {
    this.#told = told;
    Promise.resolve(module).then(compile).then((compiled) => this.#begin(compiled)).catch((error) => this.#end(error));
  }

  send(line) {
    this.#do(() => {
      const [how, value] = this.#answered(line);
      this.#told[how](value);
    });
  }

  close() {
    this.#do(() => this.#end(new Ended(0)));
  }

  stop() {
    this.#early = null;
    this.#world?.close();
  }

  // A RangeError is one line's fault; every other error ends the world.
  #answered(line) {
    try {
      return ["reply", this.#world.line(line)];
    } catch (error) {
      if (error instanceof RangeError) return ["fail", error];
      throw error;
    }
  }

  #begin(compiled) {
    if (!this.#early) return; // it was stopped
    this.#world = new World(compiled);
    for (const step of this.#early.splice(0)) this.#do(step);
  }

  #do(step) {
    if (!this.#world) return this.#early?.push(step);
    try {
      step();
    } catch (error) {
      this.#end(error);
    }
  }

  #end(error) {
    this.stop();
    this.#told.end(error);
  }
}
