// Made by tools/commands of clients/commands.json: change that, and call `tools/commands --write`.
import type {
  Attributes, Changes, Command, Direction, Grid, Item, Node, Operation, Options, Reference, Selection, Served, Site, Step, Taken, Tree,
  Wrapper
} from "./values.js";

/** The commands of docs/FORMAT.md, each as a method. */
export interface Commands {
  /** Opens a page for so many sites, 1 to 8, in place of the one that is open; gives the length of its list. */
  open(members: { page: string; sites?: number }, options?: Options): Promise<number>;
  /** Shows the page. */
  html(members?: Site, options?: Options): Promise<string>;
  /** Shows the items from an offset to another, or to the end. */
  data(members?: { from?: number; to?: number } & Site, options?: Options): Promise<Item[]>;
  /** Shows the root of the tree. */
  tree(members?: Site, options?: Options): Promise<Tree>;
  /** Shows the innermost node round an offset. */
  at(members: { at: number } & Site, options?: Options): Promise<Node>;
  /** Tells the nearest offset where text may stand: this one, or the first on that side. */
  near(members: { at: number; dir: Direction } & Site, options?: Options): Promise<number>;
  /** Shows the references. */
  refs(members?: Site, options?: Options): Promise<Reference[]>;
  /** Shows the selection. */
  caret(members?: Site, options?: Options): Promise<Selection>;
  /** Tells what changed in the list since the site last told it, or since the page was opened. `data` shows what came. */
  changes(members?: Site, options?: Options): Promise<Changes>;
  /** Types characters, with the marks of what stands to the left, or with none. */
  text(members: { at: number; text: string; marks?: "left" | "none" } & Site, options?: Options): Promise<number>;
  /** Takes a range out. */
  remove(members: { from: number; to: number } & Site, options?: Options): Promise<number>;
  /** Splits so many of the innermost nodes. */
  split(members: { at: number; depth?: number } & Site, options?: Options): Promise<number>;
  /** Puts a mark on the characters and leaves of a range. */
  mark(members: { from: number; to: number; tag: string; attrs?: Attributes } & Site, options?: Options): Promise<number>;
  /** Takes a mark off the characters and leaves of a range. */
  unmark(members: { from: number; to: number; tag: string; attrs?: Attributes } & Site, options?: Options): Promise<number>;
  /** Changes which nodes stand round sibling nodes, and round each of them. */
  wrap(
    members: { from: number; to: number; unwrap_outer?: string[]; wrap_outer?: Wrapper[]; unwrap_each?: string[]; wrap_each?: Wrapper[] } & Site,
    options?: Options,
  ): Promise<number>;
  /** Gives the content branch that begins at an offset another kind. */
  convert(members: { at: number; kind: string } & Site, options?: Options): Promise<number>;
  /** Sets an attribute of the node that begins at an offset, or takes it away. */
  attr(members: { at: number; name: string; to: string | null } & Site, options?: Options): Promise<number>;
  /** Puts in a fragment of a page. */
  insert(members: { at: number; html: string } & Site, options?: Options): Promise<number>;
  /** Makes the change that the operations are; with `exact` what they insert stands for the very items that `data` shows so. */
  apply(members: { exact?: boolean; ops: Operation[] } & Site, options?: Options): Promise<number>;
  /** Makes the changes of 1 to 1,000 commands as one; all of them, or none. */
  batch(members: { cmds: Command[] } & Site, options?: Options): Promise<number>;
  /** Puts an empty row into the table that begins at an offset, before this one. */
  row_in(members: { at: number; row: number } & Site, options?: Options): Promise<number>;
  /** Takes a row out of the table that begins at an offset. */
  row_out(members: { at: number; row: number } & Site, options?: Options): Promise<number>;
  /** Puts an empty column into the table that begins at an offset, before this one. */
  col_in(members: { at: number; column: number } & Site, options?: Options): Promise<number>;
  /** Takes a column out of the table that begins at an offset. */
  col_out(members: { at: number; column: number } & Site, options?: Options): Promise<number>;
  /** Shows the cells of the table that begins at an offset. */
  grid(members: { at: number } & Site, options?: Options): Promise<Grid>;
  /** Moves the list item that begins at an offset one list deeper. */
  indent(members: { at: number } & Site, options?: Options): Promise<number>;
  /** Moves the list item that begins at an offset one list out. */
  outdent(members: { at: number } & Site, options?: Options): Promise<number>;
  /** Takes back the last change that wasn't sent. */
  undo(members?: Site, options?: Options): Promise<number>;
  /** Makes again what was undone last. */
  redo(members?: Site, options?: Options): Promise<number>;
  /** Puts both ends of the selection. */
  select(members: { anchor: number; focus: number } & Site, options?: Options): Promise<Selection>;
  /** Moves the focus to its next place, and the anchor with it unless it is kept. */
  move(members: { dir: Direction; by?: Step; keep?: boolean } & Site, options?: Options): Promise<Selection>;
  /** Puts a text in the place of the selection, with the caret after it. */
  type(members: { text: string } & Site, options?: Options): Promise<number>;
  /** Takes the selection out, or where it is collapsed what stands up to the next place. */
  erase(members: { dir: Direction; by?: Step } & Site, options?: Options): Promise<number>;
  /** Sends all changes that weren't sent to the server; gives how many they are. */
  send(members?: Site, options?: Options): Promise<number>;
  /** Has the server take the site's next submission. */
  serve(members?: Site, options?: Options): Promise<Served>;
  /** Has the site take what the server sends next. */
  take(members?: Site, options?: Options): Promise<Taken>;
  /** Takes a committed change back under all later ones, as a change of the site's own; with `live` what was taken back already doesn't stand in its way. */
  revoke(members: { entry: number; live?: boolean } & Site, options?: Options): Promise<number>;
}
