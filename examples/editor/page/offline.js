// The service worker: the editor's own files, for when no server gives them. What a server gives is always preferred.
/* eslint-env serviceworker */
const CACHE = "vemodel";

addEventListener("install", () => skipWaiting());
addEventListener("activate", (event) => event.waitUntil(clients.claim()));

// The page tells which files it is made of once it is there.
addEventListener("message", ({ data }) => caches.open(CACHE).then((cache) => cache.addAll(data)));

async function answered(request) {
  try {
    return await fetch(request);
  } catch (error) {
    const kept = await caches.match(request, { ignoreSearch: request.mode === "navigate" });
    if (kept) return kept;
    throw error;
  }
}

addEventListener("fetch", (event) => {
  const isOurs = new URL(event.request.url).origin === location.origin;
  const isStream = event.request.headers.get("accept")?.includes("text/event-stream");
  if (isOurs && event.request.method === "GET" && !isStream) event.respondWith(answered(event.request));
});
