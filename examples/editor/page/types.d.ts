// The shapes that go between the files of the page, for the types in their comments.

type Attrs = [name: string, value: string][];
type Mark = [tag: string, attrs: Attrs];

/** An opening or a closing, as `data` shows it. */
interface Bracket {
  open?: string;
  close?: string;
  attrs?: Attrs;
  marks?: Mark[];
  raw?: string;
  ref?: [group: string, key: string];
  [member: string]: unknown;
}

/** What `data` shows: a text, a text with its marks, an opening or a closing. */
type Item = string | [text: string, marks: Mark[]] | Bracket;

/** A node of the tree. An element has `open`, `close` and `kids`; a run of text has `text` and `marks`; the root has `kids` alone. */
interface TreeNode {
  kind: string;
  size: number;
  parent: TreeNode | null;
  kids?: TreeNode[];
  open?: Bracket;
  close?: Bracket;
  text?: string;
  marks?: Mark[];
}

/** The anchor and the focus of a selection. */
type Selected = number[];

/** A line of the program, without its site. */
interface Line {
  do: string;
  [member: string]: unknown;
}

type Patch = [at: number, removed: number, inserted: number];

/** Items in the place of others. */
interface Replacement {
  at: number;
  gone: number;
  came: Item[];
}

/** What an intent asks for. */
interface Edit {
  lines: Line[];
  kind?: string; // of typing and erasing, so that a burst is undone as one
  what?: string; // its name, for whoever is told that it was dropped
  text?: string; // that was typed
  numbers?: number[]; // of its changes, once they are committed
  reveal?: boolean; // whether the caret goes to what it changed
  again?: number; // how many changes `undo` takes back by it
  isAgain?: boolean; // whether it is typed a second time
  stack?: object[]; // where its step of undo and redo goes
  refused?: (reply: string) => string;
  restore?: () => void;
}

/** What an intent gives: an edit, a text to tell the user, or nothing. */
type Answer = Edit | string | null;

/** What a turn tells: what changed in the site's list, and what became of the edits before. */
interface Turn {
  replies: string[];
  numbered: { edit: Edit | null; number: number }[];
  dropped: { edit: Edit | null; who: number }[];
  patches: Patch[];
  came: [from: number, items: Item[]][];
  caret: Selected;
}
