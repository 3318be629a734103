// Why a line isn't done, and why no line is answered any more.

// What each exit status of the program says. A module has no memory or is closed; it knows no other.
const STATUSES = {
  0: "it was closed",
  1: "it could not be built; standard error says why",
  2: "it doesn't know its words",
  3: "its input failed",
  4: "its output failed",
  5: "its lines had more than 67,108,864 bytes together",
  6: "there was no memory",
  trap: "the module met a fault, or the end of its stack",
  aborted: "a call was aborted before it was answered, so nobody knows whether its change was made",
};

export class Refused extends Error {
  name = "Refused";

  constructor(refusal) {
    super(refusal);
    const parts = refusal.split(" ");
    this.words = parts.filter((it) => !isNumber(it));
    this.numbers = parts.filter(isNumber).map(Number);
    this.word = this.words[0];
  }
}

export class Ended extends Error {
  name = "Ended";

  constructor(status, { signal = null, cause } = {}) {
    const how = signal ? `by ${signal}` : `with status ${status}: ${STATUSES[status] ?? "not a status of the program"}`;
    super(`the core ended ${how}`, { cause });
    this.status = status;
    this.signal = signal;
  }
}

/** Throws a RangeError where a text is no line. */
export function checkLine(line) {
  if (line.includes("\n")) throw new RangeError("a line holds no newline: in JSON it is written \\n");
  if (!line.isWellFormed()) throw new RangeError("a line holds no half of a surrogate pair");
}

export function isNumber(word) {
  return /^\d+$/.test(word);
}
