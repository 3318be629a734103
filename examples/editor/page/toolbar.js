// The buttons, the menu of tables, the field for a link or a picture, and what they show of the selection.
import { converted, kindsAt, listed } from "./blocks.js";
import { linkAt, linked, marksAt, toggled } from "./marks.js";
import { pictured } from "./pictures.js";
import { inTable, tableChanged, tabled } from "./tables.js";

const TAGS = { bold: ["b", "strong"], italic: ["i", "em"], underline: ["u", "ins"] };

/**
 * @param {HTMLElement} bar
 * @param {HTMLElement} host
 * @param {import("./editor.js").Editor} editor
 */
export function toolbar(bar, host, editor) {
  const button = (name) => bar.querySelector(`[data-do=${name}]`);
  const [kind, table] = bar.querySelectorAll("select");
  const openField = fieldOf(bar.querySelector("form"), host, editor);

  // Where nothing is selected a mark is for what is typed next.
  const toggle = (name) => editor.act(({ root, selection, marks }) => {
    const tags = TAGS[name];
    if (selection[0] !== selection[1]) return toggled(root, selection, tags);
    const found = marksAt(root, selection).find(([tag]) => tags.includes(tag))?.[0];
    const tag = found ?? tags[0];
    if (marks.has(tag)) marks.delete(tag);
    else marks.set(tag, !found);
    show();
    return null;
  });
  const list = (tag) => editor.act(({ root, selection }) => listed(root, selection, tag));

  const does = {
    undo: () => editor.undo(),
    redo: () => editor.redo(),
    bold: () => toggle("bold"),
    italic: () => toggle("italic"),
    underline: () => toggle("underline"),
    link: () => openField("link"),
    picture: () => openField("picture"),
    ul: () => list("ul"),
    ol: () => list("ol"),
    table: () => editor.act(({ root, selection }) => tabled(root, selection)),
  };
  for (const [name, act] of Object.entries(does)) {
    button(name).addEventListener("mousedown", (event) => event.preventDefault()); // the selection stays in the page
    button(name).addEventListener("click", act);
  }

  // A choice of a menu goes to the page, where the selection still is.
  const choose = (menu, act) => menu.addEventListener("change", () => {
    const word = menu.value;
    host.focus();
    editor.places.select(...editor.selection);
    editor.act(({ root, selection }) => act(root, selection, word));
  });
  choose(kind, converted);
  choose(table, (root, selection, word) => {
    table.value = "";
    return tableChanged(root, selection, word, editor);
  });

  function show() {
    const { root, selection, marks, history } = editor;
    const tags = new Set(marksAt(root, selection).map(([tag]) => tag));
    for (const [tag, on] of marks) on ? tags.add(tag) : tags.delete(tag);
    const kinds = kindsAt(root, selection);
    const pressed = { ul: kinds.list === "ul", ol: kinds.list === "ol", link: tags.has("a") };
    for (const [name, of] of Object.entries(TAGS)) pressed[name] = of.some((tag) => tags.has(tag));
    for (const [name, on] of Object.entries(pressed)) button(name).setAttribute("aria-pressed", on);
    for (const [name, on] of Object.entries(history.state)) button(name).disabled = !on;
    kind.disabled = !kinds.branch;
    if (kinds.branch) kind.value = kinds.branch;
    table.hidden = !inTable(root, selection);
  }

  const shortcuts = { b: does.bold, i: does.italic, u: does.underline, k: does.link, z: does.undo, y: does.redo, "shift+z": does.redo };
  return { show, shortcuts };
}

// The field in which an address is written: that of a link, or of a picture and its words.
function fieldOf(form, host, editor) {
  const [address, words] = form.querySelectorAll("input");
  const remove = form.querySelector("[value=remove]");
  let what = "link";

  const close = () => {
    form.hidden = true;
    host.focus();
    editor.places.select(...editor.selection);
  };
  form.addEventListener("submit", (event) => {
    event.preventDefault();
    const [href, alt] = [event.submitter?.value === "remove" ? "" : address.value.trim(), words.value.trim()];
    close();
    editor.act(({ root, selection }) => (what === "link" ? linked(root, selection, href) : pictured(root, selection, href, alt)));
  });
  form.addEventListener("keydown", (event) => event.key === "Escape" && close());

  return (wanted) => {
    editor.look();
    what = wanted;
    address.value = what === "link" ? linkAt(editor.root, editor.selection).href : "";
    words.value = "";
    words.hidden = what === "link";
    remove.hidden = what !== "link";
    form.hidden = false;
    address.select();
  };
}
