// Keeps the page for times without a network: what the network gives comes first, and what was kept stands in for it.
// web/make puts in the names of the files and a sum of them.
const VERSION = "/* version */";
const FILES = [/* files */];

async function keep() {
    const cache = await caches.open(VERSION);
    await cache.addAll(FILES.map(file => new Request(file, {cache: "reload"})));
    await skipWaiting();
}

async function drop() {
    for (const name of await caches.keys()) if (name !== VERSION && name.startsWith("fluent-")) await caches.delete(name);
    await clients.claim();
}

async function answer(request) {
    try {
        return await fetch(request);
    } catch (error) {
        const kept = await caches.match(request, {ignoreSearch: true});
        if (kept) return kept;
        throw error;
    }
}

addEventListener("install", event => event.waitUntil(keep()));
addEventListener("activate", event => event.waitUntil(drop()));
addEventListener("fetch", event => {
    const {method, url} = event.request;
    if (method === "GET" && url.startsWith(registration.scope)) event.respondWith(answer(event.request));
});
