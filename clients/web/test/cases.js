// What each core has to answer, over whatever it runs, as a table that Node and a page go through. Its values are those of docs/FORMAT.md.
// A step is a method's name, its members, and what it gives; or of an error the members that are looked at.
const SPREAD = "a\u{1f600}\u2028\ufeffb";
const LONG = `<p>${"\u{1f600}".repeat(50_000)}</p>`;
const TABLE = '<table><tbody><tr><td rowspan="2">a</td><td>b</td></tr><tr><td>c</td></tr><tr><td>d</td></tr></tbody></table>';
const NOTE = `<p>a<sup typeof="mw:Extension/ref" data-mw='{"name":"ref","attrs":{},"body":{"html":"note"}}'></sup></p>`;

export const CASES = {
  values: [
    ["open", { page: "<p>ab</p>" }, 6],
    ["text", { at: 2, text: "X" }, 7],
    ["html", undefined, "<p>aXb</p>"],
    ["tree", {}, ["root", ["p", 3], ["internal_list"]]],
    ["mark", { from: 2, to: 3, tag: "b" }, 7],
    ["data", { from: 1, to: 4 }, ["a", ["X", [["b", []]]], "b"]],
    ["data", { from: undefined, to: 1 }, [{ open: "p", origin: 0 }]],
    ["undo", {}, 7],
    ["at", { at: 1 }, { kind: "p", begin: 0, end: 5, state: "content" }],
    ["near", { at: 0, dir: "ahead" }, 1],
    ["select", { anchor: 1, focus: 1 }, { anchor: 1, focus: 1 }],
    ["move", { dir: "ahead", keep: true }, { anchor: 1, focus: 2 }],
    ["caret", {}, { anchor: 1, focus: 2 }],
  ],
  "what changed": [
    ["open", { page: "<p>ab</p>" }, 6],
    ["changes", {}, { length: 6, patches: [{ at: 0, removed: 0, inserted: 6 }] }],
    ["text", { at: 2, text: "X" }, 7],
    ["mark", { from: 1, to: 3, tag: "b" }, 7],
    ["changes", {}, { length: 7, patches: [{ at: 2, removed: 0, inserted: 1 }, { at: 1, removed: 2, inserted: 2 }] }],
    ["changes", { site: 0 }, { length: 7, patches: [] }],
  ],
  "a table, and a reference": [
    ["open", { page: TABLE }, 32],
    ["grid", { at: 0 }, {
      rows: 3,
      columns: 2,
      cells: [[3, 0, 0, 2, 1], [8, 0, 1, 1, 1], [15, 1, 1, 1, 1], [22, 2, 0, 1, 1]]
        .map(([place, row, column, rows, columns]) => ({ place, row, column, rows, columns })),
    }],
    ["open", { page: NOTE }, 15],
    ["refs", {}, [{ place: 2, group: "", key: "a:0", number: 1, carrier: true, body: 6 }]],
  ],
  "two sites": [
    ["open", { page: "<p>abcd</p>", sites: 2 }, 8],
    ["remove", { from: 1, to: 3 }, 6],
    ["text", { at: 2, text: "X", site: 1 }, 9],
    ["send", {}, 1],
    ["send", { site: 1 }, 1],
    ["serve", {}, { accepted: 1, of: 1, conflict: null }],
    ["serve", { site: 1 }, { accepted: 0, of: 1, conflict: [[1, 3], [2, 2]] }],
    ["take", { site: 1 }, { foreign: 1, dropped: 1 }],
    ["take", { site: 1 }, { accepted: 0 }],
    ["revoke", { entry: 1, live: true }, { words: ["bad_entry"] }],
  ],
  refusals: [
    ["html", {}, { name: "Refused", message: "not_open", word: "not_open", numbers: [] }],
    ["open", { page: "a<1>" }, { name: "Refused", word: "html", words: ["html", "bad_tag"], numbers: [1] }],
    ["open", { page: '<p id="x">ab</p><ul><li>c</li></ul>' }, 13],
    ["batch", { cmds: [{ do: "text", at: 1, text: "x" }, { do: "remove", from: 9, to: 30 }] },
      { message: "batch 1 bad_range 9 30", words: ["batch", "bad_range"], numbers: [1, 9, 30] }],
    ["text", { at: -1, text: "" }, { words: ["bad_command", "at"], numbers: [] }],
  ],
  "a member that a command doesn't have": [
    ["open", { page: "<p>ab</p>" }, 6],
    ["wrap", { from: 0, to: 4, wrapOuter: [{ kind: "ul" }] },
      { name: "TypeError", message: "wrap has no member wrapOuter: it has from, to, unwrap_outer, wrap_outer, unwrap_each, wrap_each, site" }],
    ["open", { page: "", site: 0 }, { name: "TypeError" }],
    ["open", "<p>ab</p>", { name: "TypeError" }],
    ["html", { do: "undo" }, { name: "TypeError" }],
    ["undo", {}, { word: "nothing_to_undo" }], // nothing was sent
  ],
  "characters are counted, not UTF-16 units": [
    ["open", { page: `<p>${SPREAD}</p>` }, [...SPREAD].length + 4],
    ["html", {}, `<p>${SPREAD}</p>`],
    ["open", { page: LONG }, 50_004],
    ["html", {}, LONG],
  ],
  "raw lines": [
    ["line", "", "no bad_json"],
    ["line", '{"do":"open","page":"<p>ab</p>"}', "ok 6"],
    ["text", { at: 2, text: "\n" }, 7],
    ["line", '{"do":\n"html"}', { name: "RangeError" }],
    ["line", '{"do":"text","at":2,"text":"\ud800"}', { name: "RangeError" }],
    ["text", { at: 2, text: "\ud800" }, { word: "bad_json" }], // JSON.stringify escapes it
    ["ask", { do: "html" }, "<p>a\nb</p>"],
    ["ask", { do: "paint" }, { word: "bad_command" }],
  ],
};

/** Goes through the steps of a case with a core, and returns what was otherwise, each said in words. */
export async function faults(core, steps) {
  const found = [];
  for (const [method, members, wanted] of steps) {
    const got = await core[method](members).catch((error) => ({ error }));
    const seen = got?.error instanceof Error ? pick(got.error, wanted) : got;
    if (JSON.stringify(seen) !== JSON.stringify(wanted)) {
      found.push(`${method} ${JSON.stringify(members)?.slice(0, 200)} gives ${JSON.stringify(seen)?.slice(0, 500)}: ${got?.error ?? ""}`);
    }
  }
  return found;
}

function pick(error, wanted) {
  if (typeof wanted !== "object") return String(error);
  return Object.fromEntries(Object.keys(wanted).map((name) => [name, error[name]]));
}

/**
 * Asks the lines of a script, each as [line, reply], by the methods that they name, and returns what was otherwise.
 */
export async function faultsOfScript(core, rows) {
  const found = [];
  for (const [line, reply] of rows) {
    const got = await called(core, line);
    if (got !== reply) found.push(`${line} is answered ${got}, and not ${reply}`);
  }
  return found;
}

// What the method that a line names gives for its members, spelled as a reply; or the raw reply where there is none.
async function called(core, line) {
  const { do: name, ...members } = parsed(line) ?? {};
  if (typeof core[name] !== "function") return core.line(line);
  try {
    return `ok ${spelled(name, await core[name](members))}`;
  } catch (error) {
    if (error.name === "Refused") return `no ${error.message}`;
    throw error;
  }
}

function parsed(line) {
  try {
    return JSON.parse(line);
  } catch {
    return null;
  }
}

// How values are spelled in replies, by command. All others are JSON.
const tree = (node) => (Array.isArray(node) ? `(${node.map(tree).join(" ")})` : String(node));
const inOrder = (value) => Object.values(value).join(" ");
const rowsOf = (list) => JSON.stringify(list.map(Object.values));
const SPELLED = {
  tree,
  at: inOrder,
  caret: inOrder,
  select: inOrder,
  move: inOrder,
  changes: (value) => `${value.length} ${rowsOf(value.patches)}`,
  refs: rowsOf,
  grid: (value) => `${value.rows} ${value.columns} ${rowsOf(value.cells)}`,
  serve: ({ accepted, of, conflict }) => `${accepted} of ${of}${conflict ? ` conflict ${conflict.flat().join(" ")}` : ""}`,
  take: (value) => ("accepted" in value ? `ack ${value.accepted}` : `foreign ${value.foreign} dropped ${value.dropped}`),
};

function spelled(name, value) {
  return (SPELLED[name] ?? JSON.stringify)(value);
}
