// Two windows on one page, one after the other and at once.
import assert from "node:assert/strict";
import { until } from "../browser.mjs";
import { choose, clickAfter, clickOn, dragOver, filesKept, html, keys, meet, paste, press, shared, state, told, unsent,
  untold } from "../person.mjs";
import { run } from "./steps.mjs";

const holds = (person, text) => until(`the page holds ${text}`, async () => (await html(person)).includes(text));
const count = (page, letter) => page.split(letter).length - 1;

// Each step is made by one of the two or by both, and replaces some texts of the page by others.
export const steps = [
  ["typing, Backspace, Enter after a heading", async (ada) => {
    await clickAfter(ada, "A page for two");
    await ada.type(", 😀x");
    await keys(ada, "Backspace", "Enter");
    await ada.type("Worlds");
    await keys(ada, "Home", "Delete");
    await ada.type("Two w");
    await keys(ada, "End", "ctrl+shift+ArrowLeft", "ctrl+b", "ArrowRight");
    await ada.type(" meet");
    await keys(ada, "ctrl+b");
    await ada.type(".");
  }, ["A page for two</h1>", "A page for two, 😀</h1><p>Two <b>worlds meet</b>.</p>"]],
  ["a mark by a button", async (_, ben) => (await dragOver(ben, "what is typed"), await press(ben, "italic")),
    ["what is typed in one", "<i>what is typed</i> in one"]],
  ["a heading by the menu", async (_, ben) => (await clickAfter(ben, "Offsets count"), await choose(ben, "Kind of paragraph", "h1")),
    ["<p>Offsets count characters, so 😀 and é are one each.</p>", "<h1>Offsets count characters, so 😀 and é are one each.</h1>"]],
  ["an item, one deeper, and out", async (ada) => {
    await clickAfter(ada, "leaves the rest.");
    await keys(ada, "Enter");
    await ada.type("deep");
    await keys(ada, "Tab", "Enter");
    await ada.type("flat");
    await keys(ada, "shift+Tab");
  }, ["leaves the rest.</li></ul>", "leaves the rest.<ul><li><p>deep</p></li></ul></li><li><p>flat</p></li></ul>"]],
  ["a paste, and an input method", async (_, ben) => {
    await clickAfter(ben, "are one each.");
    await paste(ben, "<p>One</p><p>two</p>");
    await ben.type("?");
    await ben.compose(["z", "ž"]);
  }, ["are one each.</h1>", "are one each.</h1><p>One</p><p>two?ž</p>"]],
  ["a selection of which the browser tells later than another types", async (ada, ben) => {
    await clickAfter(ben, "in two windows");
    await untold(ada, async () => {
      await dragOver(ada, "this page");
      await ben.type("!");
      await holds(ada, "in two windows!");
      await keys(ada, "ctrl+b");
    });
  }, ["Open this page in two windows", "Open <b>this page</b> in two windows!"]],
  ["text that is dragged as another types before it", async (ada, ben) => {
    await clickAfter(ben, "for two");
    await run(ada, [["drag", "Each ", "them", () => ben.type("!").then(() => holds(ada, "for two!"))]]);
  }, ["for two, 😀", "for two!, 😀"], ["Each of them", "of themEach "]],
  ["a block that is dragged as another parts it", async (ada, ben) => {
    await clickAfter(ben, "On");
    await run(ada, [["block", "One", "two?ž", () => ben.key("Enter").then(() => holds(ada, "<p>On</p>"))]]);
    await told(ada, /^Somebody changed this block/);
    await clickAfter(ada, "two?ž");
    await ada.type("!");
  }, ["<p>One</p><p>two?ž</p>", "<p>On</p><p>e</p><p>two?ž!</p>"]],
  ["a block that another changes after its handle came", async (ada, ben) => {
    await clickAfter(ben, "On");
    const changes = () => choose(ben, "Kind of paragraph", "h2").then(() => holds(ada, "<h2>On</h2>"));
    await run(ada, [["block", "On", "two?ž", undefined, changes]]);
  }, ["<p>On</p><p>e</p><p>two?ž!</p>", "<p>e</p><p>two?ž!</p><h2>On</h2>"]],
  ["an input method, while an undo waits and another types", async (ada, ben) => {
    await unsent(ada, async () => {
      await run(ada, [["click", "an item"], ["type", "x"], ["keys", "ctrl+z"], ["click", "one list"], ["compose", ["に", "日本"]]]);
      await run(ben, [["click", "Enter"], ["type", "!"]]);
      await holds(ada, "Enter!");
    });
  }, ["<td>Enter<", "<td>Enter!<"], ["an item one list", "an item one list日本"]],
];

/** Both type at once, where it isn't known which site comes first; nothing of it is lost. */
export async function race(ada, ben) {
  const before = await meet(ada, ben);
  await clickAfter(ada, "Type in both");
  await clickAfter(ben, "in one paragraph");
  await Promise.all([ada.type("AAAAAAAAAAAA"), ben.type("BBBBBBBBBBBB")]);
  await clickAfter(ben, "Type in both");
  await Promise.all([ada.type("AAAAAAAA"), ben.type("BBBBBBBB")]);
  const after = await meet(ada, ben);
  for (const letter of "AB") assert.equal(count(after, letter) - count(before, letter), 20, "something that was typed is lost");
  // what one erases the other types in
  await dragOver(ada, "Offsets count characters");
  await clickAfter(ben, "count");
  await Promise.all([ada.key("Delete"), ben.type("CCCCCC")]);
  await Promise.all([ada.key("ctrl+z"), ben.key("ctrl+z")]);
  await meet(ada, ben);
}

/** What the other selected is seen, text and boxes. */
export async function selections(ada, ben) {
  await dragOver(ben, "both windows at once");
  const tinted = "[...(CSS.highlights.get('site-1') ?? [])].map(String).join()";
  await until("the selection is tinted", async () => (await ada.value(tinted)) === "both windows at once");
  await clickOn(ben, "#page .leaf");
  await until("the box is covered", () => ada.value("document.querySelectorAll('#carets .held').length === 1"));
}

/** Whose change was dropped is told what it was, and for whom. */
export async function dropped(ada, ben) {
  await meet(ada, ben);
  await dragOver(ada, "Things to try");
  await clickAfter(ben, "Things");
  await ada.offline(true);
  await ada.key("ctrl+i");
  await ben.type("!");
  await shared(ben);
  await ada.offline(false);
  await told(ada, /^Ben changed .* dropped: a mark$/);
  await meet(ada, ben);
}

/** A window that lost its connection shows so, and sends what was typed when it is back. */
export async function away(ada, ben) {
  await filesKept(ada);
  await meet(ada, ben);
  await clickAfter(ada, "Select some");
  await ada.offline(true);
  await ada.type("OFF");
  await until("the loss is told", async () => /isn't there/.test(await state(ada)));
  await clickAfter(ben, "Undo");
  await ben.type("BEN");
  await shared(ben);
  await ada.offline(false);
  await holds(ben, "Select someOFF");
  await holds(ada, "UndoBEN");
  await meet(ada, ben);
}
