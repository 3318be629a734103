// Windows without a server: alone, cut off, loaded again, and joined later.
import assert from "node:assert/strict";
import { until } from "../browser.mjs";
import { clickAfter, filesKept, html, keys, meet, state } from "../person.mjs";

export const page = "<h1>On cats</h1><p>They sit.</p>";

const isIn = (person, wanted) => until(`the state is ${wanted}`, async () => (await state(person)).startsWith(wanted));
const ALONE = "No server", AWAY = "The server isn't there", SHARED = "";

// Loads a window again. Until it has looked for a server its state is the one that it has where a server is.
async function reload(person, wanted) {
  await person.reload();
  await isIn(person, wanted);
}

/** A window that never met a server keeps what is typed, and joins the first server that has the page. */
export async function alone(browser, files, serve) {
  const ada = await browser.edit(files.url);
  await isIn(ada, ALONE);
  await clickAfter(ada, "cats");
  await ada.type(", alone");
  await keys(ada, "Enter");
  await ada.type("More");
  await reload(ada, ALONE);
  assert.equal(await html(ada), "<h1>On cats, alone</h1><p>More</p><p>They sit.</p>");
  await filesKept(ada);
  await files.close();
  await reload(ada, ALONE);
  await clickAfter(ada, "More");
  await ada.type(" without files");
  assert.equal(await html(ada), "<h1>On cats, alone</h1><p>More without files</p><p>They sit.</p>");
  const server = await serve(files.port);
  await until("the server has it", async () => (await state(ada)) === SHARED);
  const ben = await browser.edit(server.url);
  assert.equal(await meet(ada, ben), "<h1>On cats, alone</h1><p>More without files</p><p>They sit.</p>");
  return { ada, ben, server };
}

/** Windows whose server ends go on, each by itself, and meet at the next one. */
export async function apart({ ada, ben, server }, serve) {
  const port = new URL(server.url).port;
  await server.close();
  for (const person of [ada, ben]) await isIn(person, AWAY);
  await clickAfter(ada, "alone");
  await ada.type(" A1");
  await keys(ada, "ctrl+z", "ctrl+y");
  await ada.type("A2");
  await reload(ada, AWAY);
  await clickAfter(ada, "A2");
  await ada.type("A3");
  await clickAfter(ben, "They");
  await ben.type(" B");
  const next = await serve(port);
  await until("both are shared", async () => (await state(ada)) === SHARED && (await state(ben)) === SHARED);
  const wanted = "<h1>On cats, alone A1A2A3</h1><p>More without files</p><p>They B sit.</p>";
  await until("all is joined", async () => (await html(ada)) === wanted);
  assert.equal(await meet(ada, ben), wanted);
  await Promise.all([ada.close(), ben.close()]);
  await next.close();
}
