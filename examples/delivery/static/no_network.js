// Asks every five seconds whether the application answers, and goes to the test then. It sends nothing else.
"use strict";

setInterval(async () => {
  try {
    const reply = await fetch("/", {method: "HEAD", cache: "no-store"});
    if (reply.ok) location.replace("/test");
  } catch (fault) { /* there is no network yet */ }
}, 5000);
