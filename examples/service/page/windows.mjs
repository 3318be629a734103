// node --experimental-websocket windows.mjs CHROMIUM ADDRESS: two windows on one page of the service at this address, with real keys.
import { Browser, onceMore, until } from "../../editor/browser.mjs";
import { untold } from "../../editor/person.mjs";

const [chromium, address] = process.argv.slice(2);

const put = (window, at) => window.value(`getSelection().setPosition(document.querySelector("#page > div").firstChild.firstChild, ${at})`);
const lines = (window) => window.value('[...document.querySelectorAll("#page > div")].map((line) => line.textContent).join("\\n")');

const shown = (window, text) => until(`a window shows ${text}`, async () => (await lines(window)) === text);

async function opened(browser, page, name) {
  const window = await browser.open(`http://${address}/window/?page=${page}&name=${name}`);
  await until("the page is there", () => window.value('document.querySelectorAll("#page > div").length > 0'));
  await window.drawn();
  await window.value('document.querySelector("#page").focus()');
  return window;
}

async function edited(browser, page) {
  const [ada, ben] = [await opened(browser, page, "Ada"), await opened(browser, page, "Ben")];
  // what both windows and the service show
  const shows = async (windows, text, wanted) => {
    for (const window of windows) await shown(window, text);
    const served = () => fetch(`http://${address}/pages/${page}`).then((answer) => answer.text());
    await until(`the service shows ${wanted}`, async () => (await served()) === wanted);
  };
  await put(ada, 3);
  await ada.type("d!");
  await ada.key("Enter");
  await ada.type("ef");
  await shows([ada, ben], "abcd!\nef", "<p>abcd!</p><p>ef</p>");
  await put(ben, 1);
  await ben.key("Backspace");
  await ben.type("X");
  await shows([ada, ben], "Xbcd!\nef", "<p>Xbcd!</p><p>ef</p>");
  await ada.key("Backspace");
  await shows([ada, ben], "Xbcd!\ne", "<p>Xbcd!</p><p>e</p>");
  await ada.key("ctrl+z");
  await shows([ada, ben], "Xbcd!\nef", "<p>Xbcd!</p><p>ef</p>");
  await until("each sees the other's name", async () => (await ada.value('document.querySelector("#people").textContent')) === "Ben");
  await until("each sees the other's caret", async () => (await ben.value('document.querySelector("#carets .focus")?.title')) === "Ada");
  await until("it stands in its line", () => ben.value(`(() => {
    const [caret, line] = ["#carets .focus", "#page > div:last-child"].map((what) => document.querySelector(what).getBoundingClientRect());
    return caret.top >= line.top - 2 && caret.bottom <= line.bottom + 2;
  })()`));
  await untold(ada, async () => {
    await put(ada, 4);
    await ben.type("Y");
    await shown(ada, "XYbcd!\nef");
    await ada.type("Z");
  });
  await shows([ada, ben], "XYbcdZ!\nef", "<p>XYbcdZ!</p><p>ef</p>");
  await until("a window complains no more", () => ada.value('document.querySelector("#status").textContent === ""'));
  await Promise.all([ada.close(), ben.close()]);
}

const browser = await Browser.start(chromium);
try {
  await onceMore("windows", async (tries) => {
    const page = `windows-${tries}`;
    await fetch(`http://${address}/pages/${page}`, { method: "PUT", body: "<p>abc</p>" });
    await edited(browser, page);
  });
  console.log("window: ok: two windows of Chromium");
} finally {
  await browser.close();
}
