// node --experimental-websocket editors.mjs CHROMIUM ADDRESS: the editor of examples/editor in two windows, over the service at this address.
import { Browser, onceMore, until } from "../../editor/browser.mjs";
import { html, typeAtOnce } from "../../editor/person.mjs";

const [chromium, address] = process.argv.slice(2);

async function edited(browser, page) {
  const [ada, ben] = await Promise.all(["Ada", "Ben"].map((name) => browser.edit(`http://${address}/editor/?page=${page}&name=${name}`)));
  const shows = async (windows, wanted) => {
    const served = () => fetch(`http://${address}/pages/${page}`).then((answer) => answer.text());
    await until(`the service shows ${wanted}`, async () => (await served()) === wanted);
    for (const window of windows) await until(`a window has ${wanted}`, async () => (await html(window)) === wanted);
  };
  await ada.key("End");
  await ada.type("d!");
  await ada.key("Enter");
  await typeAtOnce(ada, "ef");
  await shows([ada, ben], "<p>abcd!</p><p>ef</p>");
  await ben.key("Home");
  await ben.type("X");
  await shows([ada, ben], "<p>Xabcd!</p><p>ef</p>");
  await ada.key("ctrl+z");
  await shows([ada, ben], "<p>Xabcd!</p><p></p>");
  await until("each sees the other's name", async () => (await ben.value('document.querySelector("#people").textContent')) === "BenAda");
  await Promise.all([ada.close(), ben.close()]);
}

const browser = await Browser.start(chromium);
try {
  await onceMore("editors", async (tries) => {
    const page = `editors-${tries}`;
    await fetch(`http://${address}/pages/${page}`, { method: "PUT", body: "<p>abc</p>" });
    await edited(browser, page);
  });
  console.log("window: ok: the editor in two windows of Chromium");
} finally {
  await browser.close();
}
