// Shows a page of its own while there is no network. It keeps that page with its style and its script, and no item and no answer.
"use strict";

const KEPT = ["/no-network", "/static/delivery.css", "/static/no_network.js"], PATIENCE = 30000;

self.addEventListener("install", event => {
  const keep = async () => {
    const kept = await caches.open("no-network");
    await kept.addAll(KEPT.map(path => new Request(path, {cache: "reload"})));
    await self.skipWaiting();
  };
  event.waitUntil(keep());
});

self.addEventListener("activate", event => event.waitUntil(self.clients.claim()));

const reply = request => Promise.race([
  fetch(request),
  new Promise((_, fail) => setTimeout(() => fail(new Error("no reply")), PATIENCE)),
]);

self.addEventListener("fetch", event => {
  const path = new URL(event.request.url).pathname;
  if (event.request.mode === "navigate") event.respondWith(reply(event.request).catch(() => caches.match("/no-network", {ignoreVary: true})));
  else if (KEPT.includes(path)) event.respondWith(fetch(event.request).catch(() => caches.match(path, {ignoreVary: true})));
});
