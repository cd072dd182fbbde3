// The time that is left, and the page for when there is no network. Every page works without this script.
"use strict";

if ("serviceWorker" in navigator) navigator.serviceWorker.register("/worker.js").catch(() => {});

const item = document.getElementById("item");
if (item) {
  const ASK = 10, time = document.getElementById("time"), soon = document.getElementById("soon");
  let ends = "left" in item.dataset ? performance.now() / 1000 + Number(item.dataset.left) : null, gone = false;

  // Leaves the page: with the option that is chosen, if the time is over and there is one.
  const leave = send => {
    if (gone) return;
    gone = true;
    if (send && item.querySelector(":checked")) item.submit();
    else location.replace(item.dataset.test);
  };

  const draw = () => {
    if (ends === null || !time) return;
    const left = Math.max(0, Math.ceil(ends - performance.now() / 1000)), two = n => String(n).padStart(2, "0");
    const hours = Math.floor(left / 3600), minutes = Math.floor(left / 60) % 60;
    time.textContent = hours ? `${hours}:${two(minutes)}:${two(left % 60)}` : `${minutes}:${two(left % 60)}`;
    const said = left < 60 ? soon.dataset.verySoon : left < 300 ? soon.dataset.soon : "";
    if (soon.textContent !== said) soon.textContent = said;
    if (left === 0) leave(true);
  };

  // Asks whether the time was changed, or the test was paused or ended, since the page was drawn.
  const ask = async () => {
    try {
      const reply = await fetch(item.dataset.clock, {cache: "no-store"});
      if (reply.redirected) return leave(false);  // the sign-in has ended
      const found = await reply.json();
      if (found.state !== "running") leave(false);
      else if ((found.left === null) !== (ends === null)) leave(false);
      else if (ends !== null) ends = performance.now() / 1000 + found.left;
    } catch (fault) { /* no network, or no reply that counts: the time on the page goes on */ }
  };

  item.addEventListener("submit", () => { gone = true; });
  addEventListener("pageshow", event => { if (event.persisted) { gone = false; ask(); } });
  draw();
  setInterval(draw, 1000);
  setInterval(ask, ASK * 1000);
}
