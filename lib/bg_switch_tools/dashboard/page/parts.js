// Elements of the page, and values as it shows them. All text goes into the page by textContent.

const SVG = "http://www.w3.org/2000/svg";

function filled(made, attributes, children) {
  for (const [name, value] of Object.entries(attributes)) {
    if (name === "text") made.textContent = value;
    else if (value !== null && value !== undefined && value !== false) made.setAttribute(name, value === true ? "" : value);
  }
  made.append(...children);
  return made;
}

export function element(tag, attributes = {}, ...children) {
  return filled(document.createElement(tag), attributes, children);
}

export function drawn(tag, attributes = {}, ...children) {
  return filled(document.createElementNS(SVG, tag), attributes, children);
}

export function span(kind, text) {
  return element("span", {class: kind, text});
}

export function byId(id) {
  return document.getElementById(id);
}

// Changes a text only where it differs, so that a reader of screens is told what is new alone.
export function setText(id, text) {
  const node = byId(id);
  if (node.textContent !== text) node.textContent = text;
}

export function clock(seconds) {
  const options = {hour: "2-digit", minute: "2-digit", second: "2-digit", hour12: false};
  return new Date(seconds * 1000).toLocaleTimeString([], options);
}

// A time, with its day where that is not today.
export function dated(seconds) {
  const at = new Date(seconds * 1000), isToday = at.toDateString() === new Date().toDateString();
  return isToday ? clock(seconds) : `${at.toLocaleDateString([], {dateStyle: "medium"})} ${clock(seconds)}`;
}

export function shortClock(seconds) {
  return clock(seconds).slice(0, 5);
}

export function rate(value) {
  return value >= 100 ? value.toFixed(0) : value.toFixed(1);
}

export function milliseconds(value) {
  if (value >= 10000) return `${(value / 1000).toFixed(1)} s`;
  return `${value >= 100 ? value.toFixed(0) : value >= 10 ? value.toFixed(1) : value.toFixed(2)} ms`;
}

export function percent(share) {
  if (share === 0) return "0 %";
  return share < 0.001 ? "< 0.1 %" : `${(share * 100).toFixed(1)} %`;
}

// Each revision keeps its colour for as long as it is shown, and no two that are shown share one; red is kept for errors. The
// first colours stand in the style sheet, and each further one is a hue of its own.
const COLOURS = 12, TURN = 137.508, RED_UP_TO = 25, HUES = 310;
const places = new Map();

export function colour(revision) {
  if (revision === "") return "none";
  if (!places.has(revision)) places.set(revision, firstFree(new Set(places.values())));
  const place = places.get(revision);
  return place < COLOURS ? `r${place}` : "further";
}

function firstFree(taken) {
  let place = 0;
  while (taken.has(place)) place += 1;
  return place;
}

// Lets go of the colours of revisions that are shown no more.
export function keepColours(shown) {
  for (const revision of [...places.keys()]) if (!shown.has(revision)) places.delete(revision);
}

// Gives an element the colour of a revision, where the style sheet has none for it.
export function tinted(made, revision) {
  const place = revision === "" ? 0 : places.get(revision) || 0;
  if (place >= COLOURS) made.style.setProperty("--hue", (RED_UP_TO + (place * TURN) % HUES).toFixed(0));
  return made;
}

export function chip(revision) {
  return tinted(element("span", {class: `chip ${colour(revision)}`, "aria-hidden": "true"}), revision);
}

export function titleOf(revision) {
  return revision === "" ? "no revision" : revision;
}
