// A world in a worker: it is posted its module's source, then lines, and posts what a Queue is told.
import { Ended } from "./errors.js";
import { Runner } from "./runner.js";

let runner;

addEventListener("message", ({ data }) => {
  if ("module" in data) runner = new Runner(data.module, { reply, fail, end });
  else if ("line" in data) runner.send(data.line);
  else runner.close();
});

function reply(text) {
  postMessage({ reply: text });
}

function fail(error) {
  postMessage({ failed: error });
}

// An error's own members aren't copied to the page.
function end(error) {
  postMessage(error instanceof Ended ? { ended: error.status, cause: error.cause } : { failed: error, isEnd: true });
  close();
}
