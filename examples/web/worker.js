/**
 * The service worker, so that the page itself opens without a network: its files come from the network where they can be had,
 * and else as they last came. What is pushed and pulled is no business of it.
 */
const CACHE = "rv-lists";
const FILES = [
  "./", "app.js", "elements.js", "found.js", "icon.svg", "mutators.js", "page.js", "parts.js", "pause.js", "place.js", "pokes.js", "protocol.js", "reorder.js",
  "rows.js", "seat.js", "sharing.js", "state.js", "store.js", "style.css", "sync.js", "todos.js", "undo.js",
  "view.js",
];

async function fetched(request) {
  const cache = await caches.open(CACHE);
  try {
    const response = await fetch(request);
    if (!response.ok) throw new Error(`status ${response.status}`);
    await cache.put(request, response.clone());
    return response;
  } catch (error) {
    const kept = await cache.match(request);
    if (kept === undefined) throw error;
    return kept;
  }
}

self.addEventListener("install", (event) => {
  event.waitUntil(caches.open(CACHE).then((cache) => cache.addAll(FILES)));
});

self.addEventListener("fetch", (event) => {
  if (event.request.method === "GET") event.respondWith(fetched(event.request));
});
