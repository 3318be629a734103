// How what a reply has after `ok ` is read, by what it gives.
import { isNumber } from "./errors.js";

export const READ = {
  number: Number,
  text: JSON.parse,
  items: JSON.parse,
  // `(p 2)` is ["p", 2].
  tree: (reply) =>
    JSON.parse(reply.replace(/[a-z]\w*/g, '"$&"').replaceAll(" ", ",").replaceAll("(", "[").replaceAll(")", "]")),
  node(reply) {
    const [kind, begin, end, state] = reply.split(" ");
    return { kind, begin: Number(begin), end: Number(end), state };
  },
  references: (reply) =>
    JSON.parse(reply).map(([place, group, key, number, carrier, body]) => ({ place, group, key, number, carrier, body })),
  selection(reply) {
    const [anchor, focus] = reply.split(" ").map(Number);
    return { anchor, focus };
  },
  changes(reply) {
    const [length, patches] = reply.split(" ");
    return { length: Number(length), patches: JSON.parse(patches).map(([at, removed, inserted]) => ({ at, removed, inserted })) };
  },
  grid(reply) {
    const [rows, columns, cells] = reply.split(" ");
    return { rows: Number(rows), columns: Number(columns), cells: JSON.parse(cells).map(readCell) };
  },
  served(reply) {
    const [accepted, of, a, b, c, d] = numbersIn(reply);
    return { accepted, of, conflict: a === undefined ? null : [[a, b], [c, d]] };
  },
  taken(reply) {
    const [first, dropped] = numbersIn(reply);
    return reply.startsWith("ack") ? { accepted: first } : { foreign: first, dropped };
  },
};

function readCell([place, row, column, rows, columns]) {
  return { place, row, column, rows, columns };
}

function numbersIn(reply) {
  return reply.split(" ").filter(isNumber).map(Number);
}
