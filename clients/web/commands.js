// The commands as methods, over what answers lines.
import { Refused } from "./errors.js";
import { READ } from "./read.js";
import { COMMANDS } from "./table.js";

/** Whoever extends it has `line(line, options)`, which gives a promise of the raw reply to a raw line. */
export class Commands {
  /** Gives what the method gives that is called as `do` is. Rejects with Refused. */
  async ask(command, options) {
    const reply = await this.line(JSON.stringify(command), options);
    if (reply.startsWith("no ")) throw new Refused(reply.slice(3));
    return READ[COMMANDS[command.do].gives](reply.slice(3));
  }
}

// The core ignores a member that a command doesn't have, so one that is misspelled is refused here.
for (const [name, { members: known }] of Object.entries(COMMANDS)) {
  Commands.prototype[name] = async function (members, options) {
    const unknown = Object.keys(members ?? {}).find((it) => !known.includes(it));
    if (unknown !== undefined) throw new TypeError(`${name} has no member ${unknown}: it has ${known.join(", ")}`);
    return this.ask({ do: name, ...members }, options);
  };
}
