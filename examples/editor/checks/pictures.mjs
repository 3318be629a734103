// Pictures of other servers are loaded only where the page's owner allows them, as each tells its server who reads the page.
import assert from "node:assert/strict";
import { createServer } from "node:http";
import { until } from "../browser.mjs";

/** A server of pictures that counts who asks. */
export async function gallery() {
  let asked = 0;
  const server = createServer((_, answer) => {
    asked++;
    answer.writeHead(200, { "content-type": "image/svg+xml" });
    answer.end('<svg xmlns="http://www.w3.org/2000/svg" width="9" height="9"/>');
  });
  await new Promise((listening) => server.listen(0, "127.0.0.1", listening));
  const origin = `http://127.0.0.1:${server.address().port}`;
  return { origin, page: `<p>a<img src="${origin}/cat.svg">b</p>`, asked: () => asked, close: () => server.close() };
}

const settled = (person) => person.value("[...document.querySelectorAll('#page img')].every((image) => image.complete)");

export async function check(person, { asked }, allowed) {
  if (allowed) await until("the picture is asked for", () => asked() > 0);
  await until("the picture is loaded or refused", () => settled(person));
  assert.equal(asked() > 0, allowed);
}
