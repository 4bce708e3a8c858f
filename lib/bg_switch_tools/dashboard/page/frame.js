// What frames each page of the dashboard: the scheme, the events that it listens to, and the line that says whether they come.

import {byId, setText} from "./parts.js";

const SILENT = 8000;  // milliseconds without an event after which the dashboard counts as silent
const AGAIN = 2000;  // milliseconds until it is tried again
const LOOK = 1000;  // milliseconds between two looks at whether events come

export function prepareScheme() {
  const button = byId("scheme"), root = document.documentElement, preferred = matchMedia("(prefers-color-scheme: dark)");
  const isDark = () => (root.dataset.scheme ? root.dataset.scheme === "dark" : preferred.matches);
  const name = () => { button.textContent = isDark() ? "light scheme" : "dark scheme"; };
  button.addEventListener("click", () => {
    root.dataset.scheme = isDark() ? "light" : "dark";
    name();
  });
  preferred.addEventListener("change", name);
  name();
}

// Gives each event of a stream to the function that has its name. While none comes, it calls `showSilence` again and again.
export function listen(address, takers, showSilence) {
  let lastEvent = Date.now(), source = null;
  const open = () => {
    source = new EventSource(address);
    for (const [name, take] of Object.entries(takers)) {
      source.addEventListener(name, (event) => {
        lastEvent = Date.now();
        take(JSON.parse(event.data));
      });
    }
    source.addEventListener("error", () => {
      showSilence();
      if (source.readyState === EventSource.CLOSED) setTimeout(open, AGAIN);
    });
  };
  open();
  setInterval(() => {
    if (source.readyState !== EventSource.OPEN || Date.now() - lastEvent > SILENT) showSilence();
  }, LOOK);
}

// Says whether what is shown is of now. `silence` is why it is not, and empty where it is; `alarm` is what is wrong then.
export function showLink(silence, alarm, live) {
  const text = silence || alarm, isLive = silence === "";
  byId("link").dataset.state = isLive ? "live" : "lost";
  setText("link", isLive ? live : "no answer");
  byId("main").classList.toggle("stale", !isLive);
  setText("alarm", text);
  byId("alarm").hidden = text === "";
}
