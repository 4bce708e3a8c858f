// Charts over time, drawn as SVG: bars of requests, and lines of durations.

import {byId, chip, clock, colour, drawn, element, milliseconds, percent, rate, shortClock, span, tinted, titleOf} from "./parts.js";

const HEIGHT = 220;
const LEFT = 52, RIGHT = 10, TOP = 64, BOTTOM = 22;
const MARK_ROWS = 3, MARK_HEIGHT = 16, LETTER = 6.6;  // the texts of marks stand above the chart, and those of outliers below them
// A value so many times as large as that which only a share of the others exceeds is an outlier: the axis ends below it.
const OUTLIER = 3, ORDINARY = 0.95, HEADROOM = 1.5;
// What is stacked for a revision, from below, by classes of status.
const PARTS = [
  {name: "good", title: "", classes: ["1xx", "2xx", "3xx"]},
  {name: "client", title: "4xx", classes: ["4xx"]},
  {name: "server", title: "5xx", classes: ["5xx"]},
  {name: "unanswered", title: "no answer", classes: ["none"]},
];

function sum(counts, classes) {
  return classes.reduce((total, each) => total + (counts[each] || 0), 0);
}

function total(counts) {
  return Object.values(counts).reduce((one, other) => one + other, 0);
}

const BAD_MARKS = ["abort", "alarm"];  // kinds of what happened that are marked in red
const NICE = [1, 1.2, 1.5, 2, 2.5, 3, 4, 5, 6, 8, 10];

// The least of these times a power of ten that is not below this.
function niceAbove(value) {
  const power = 10 ** Math.floor(Math.log10(Math.max(value, 0.001)));
  return NICE.map((factor) => factor * power).find((nice) => nice >= value * 0.999999);
}

// The end of an axis for these values: the greatest of them, unless it is an outlier.
function topOf(values, least) {
  const sorted = values.filter((value) => value > 0).sort((one, other) => one - other);
  const greatest = sorted.at(-1) || 0, ordinary = sorted[Math.ceil(sorted.length * ORDINARY) - 1] || 0;
  const isCut = greatest > Math.max(OUTLIER * ordinary, least);
  return niceAbove(Math.max(isCut ? HEADROOM * ordinary : greatest, least));
}

// For each of these spans of a line, the first row in which it overlaps none of those before it; -1 where no row is free.
function rowsOf(spans, rows) {
  const taken = Array.from({length: rows}, () => []);
  return spans.map(([left, right]) => {
    const row = taken.findIndex((each) => each.every(([from, to]) => right < from || left > to));
    if (row >= 0) taken[row].push([left, right]);
    return row;
  });
}

function revisionsIn(slots) {
  return [...new Set(slots.flatMap((slot) => slot.cells.map((cell) => cell.revision)))];
}

class Chart {
  constructor(id, name) {
    this.name = name;
    this.figure = byId(id);
    this.legend = element("ul", {class: "legend", "aria-live": "off"});
    this.svg = drawn("svg", {class: "chart", role: "img", tabindex: "0", height: HEIGHT,
      "aria-label": `${name}; the arrow keys show values`});
    this.figure.append(this.legend, this.svg);
    this.looked = null;  // the begin of the slot that is looked at
    this.svg.addEventListener("pointermove", (event) => this.look(this.timeAt(event.offsetX)));
    this.svg.addEventListener("pointerleave", () => this.look(null));
    this.svg.addEventListener("blur", () => this.look(null));
    this.svg.addEventListener("keydown", (event) => this.key(event));
    new ResizeObserver(() => this.show()).observe(this.figure);
  }

  take(told) {
    this.told = told;
    this.show();
  }

  timeAt(x) {
    const share = (x - LEFT) / this.inner;
    return this.told ? this.told.from + share * (this.told.to - this.told.from) : null;
  }

  x(time) {
    return LEFT + (time - this.told.from) / (this.told.to - this.told.from) * this.inner;
  }

  y(value) {
    return TOP + (1 - Math.min(value / this.top, 1)) * (HEIGHT - TOP - BOTTOM);
  }

  // An arrow with the value at each slot whose value is above the axis; the greatest first, and none over another.
  cuts() {
    const cut = this.values().filter(([, value]) => value > this.top).sort(([, one], [, other]) => other - one);
    const told = cut.map(([begins, value]) => [this.x(begins + this.told.seconds / 2), `\u2191${+value.toPrecision(3)}`]);
    const spans = told.map(([x, text]) => [x - text.length * LETTER / 2, x + text.length * LETTER / 2]);
    const rows = rowsOf(spans, 1);
    return told.flatMap(([x, text], place) => (rows[place] < 0 ? [] :
      [drawn("text", {class: "cut", x: Math.min(x, LEFT + this.inner - text.length * LETTER / 2), y: TOP - 4, "text-anchor": "middle", text})]));
  }

  look(time) {
    const seconds = this.told && this.told.seconds;
    this.looked = time === null || !seconds ? null : Math.floor(time / seconds) * seconds;
    this.legend.setAttribute("aria-live", time !== null && document.activeElement === this.svg ? "polite" : "off");
    this.show();
  }

  key(event) {
    const step = {ArrowLeft: -1, ArrowRight: 1}[event.key];
    if (event.key === "Escape") this.look(null);
    if (!step || !this.told) return;
    event.preventDefault();
    const {seconds, from, to} = this.told;
    const next = this.looked === null ? to - seconds : this.looked + step * seconds;
    this.look(Math.min(Math.max(next, from), to - 0.001));
  }

  show() {
    const width = this.figure.clientWidth;
    if (!this.told || width === 0) return;
    this.inner = Math.max(width - LEFT - RIGHT, 50);
    this.top = topOf(this.values().map(([, value]) => value), this.least);
    this.svg.setAttribute("viewBox", `0 0 ${width} ${HEIGHT}`);
    this.svg.setAttribute("width", width);
    this.svg.replaceChildren(...this.axes(), ...this.series(), ...this.cuts(), ...this.marks(), ...this.cross());
    this.legend.replaceChildren(...this.entries());
  }

  axes() {
    const right = LEFT + this.inner, bottom = this.y(0), made = [];
    for (const share of [0, 0.25, 0.5, 0.75, 1]) {
      const y = this.y(this.top * share);
      made.push(drawn("line", {class: share ? "grid" : "axis", x1: LEFT, x2: right, y1: y, y2: y}));
      if (share === 0 || share === 0.5 || share === 1) {
        const text = `${+(this.top * share).toPrecision(3)}`;
        made.push(drawn("text", {class: "tick", x: LEFT - 8, y: y + 4, "text-anchor": "end", text}));
      }
    }
    return [...made, ...this.times(right, bottom)];
  }

  times(right, bottom) {
    const made = [];
    const {from, to} = this.told, span = to - from;
    const step = [10, 15, 30, 60, 120, 300].find((each) => each / span * this.inner >= 58) || 300;
    for (let time = Math.ceil(from / step) * step; time <= to; time += step) {
      const x = this.x(time);
      if (x < LEFT + 12 || x > right - 12) continue;
      made.push(drawn("line", {class: "axis", x1: x, x2: x, y1: bottom, y2: bottom + 4}));
      const text = step < 60 ? clock(time) : shortClock(time);
      made.push(drawn("text", {class: "tick", x, y: HEIGHT - 4, "text-anchor": "middle", text}));
    }
    return made;
  }

  // A line for each time at which something was marked, with its texts above. Where no row has room the line has no text: it tells
  // it to the pointer, and the list of what happened has it.
  marks() {
    const byTime = new Map();
    for (const mark of this.told.marks) {
      const time = Math.round(mark.time);
      byTime.set(time, [...(byTime.get(time) || []), mark]);
    }
    const found = [...byTime].map(([time, marks]) => this.placed(time, marks));
    const rows = rowsOf(found.map((mark) => mark.span), MARK_ROWS);
    const lines = found.map((mark, place) => this.markLine(mark, rows[place]));
    const texts = found.flatMap((mark, place) => (rows[place] < 0 ? [] : this.markText(mark, rows[place])));
    return [...lines, ...texts];
  }

  placed(time, marks) {
    const x = this.x(time), kind = marks.some((mark) => BAD_MARKS.includes(mark.kind)) ? " abort" : "";
    const text = [...new Set(marks.map((mark) => mark.mark))].join(", "), width = text.length * LETTER;
    const isRight = x + 4 + width > LEFT + this.inner, left = isRight ? x - 4 - width : x + 4;
    return {x, kind, text, isRight, span: [left - 2, left + width + 2]};
  }

  markLine({x, kind, text}, row) {
    const top = (row < 0 ? MARK_ROWS : row) * MARK_HEIGHT + 2;
    return drawn("line", {class: `mark${kind}`, x1: x, x2: x, y1: top, y2: this.y(0)}, drawn("title", {text}));
  }

  // A text before a ground of its own, which hides the lines of other marks.
  markText({x, kind, text, isRight, span: [left, right]}, row) {
    const anchor = isRight ? "end" : "start", top = row * MARK_HEIGHT;
    return [drawn("rect", {class: "mark-ground", x: left, y: top, width: right - left, height: MARK_HEIGHT - 1}),
      drawn("text", {class: `mark-text${kind}`, x: isRight ? x - 4 : x + 4, y: top + 11, "text-anchor": anchor, text})];
  }

  cross() {
    if (this.looked === null) return [];
    const x = this.x(this.looked + this.told.seconds / 2);
    return x < LEFT || x > LEFT + this.inner ? [] : [drawn("line", {class: "cross", x1: x, x2: x, y1: TOP - 4, y2: this.y(0)})];
  }

  slot() {
    return this.told.slots.find((slot) => slot.begins === this.looked);
  }

  // A revision's value in the last 30 seconds, or in the slot that is looked at; null where it has no request there.
  shownOf(name) {
    if (this.looked === null) return this.told.recent[name] ? this.recent(this.told.recent[name]) : null;
    const slot = this.slot(), cell = slot && slot.cells.find((each) => each.revision === name);
    return cell ? this.value(cell) : null;
  }

  // The revisions that have a request then, each with its value, and how many others the chart shows.
  entries() {
    const when = this.looked === null ? "last 30 s" : clock(this.looked), names = revisionsIn(this.told.slots);
    const shown = names.filter((name) => this.shownOf(name) !== null), others = names.length - shown.length;
    const made = shown.map((name) =>
      element("li", {}, chip(name), span("name", titleOf(name)), span("value", this.shownOf(name))));
    const rest = others ? [element("li", {class: "others", text: `${others} ${others === 1 ? "revision" : "revisions"} without a request then`})] : [];
    return [element("li", {class: "when", text: names.length ? when : "no requests yet"}), ...made, ...rest];
  }
}

export class RequestsChart extends Chart {
  least = 1;

  // The begin of each slot, with its requests a second.
  values() {
    const all = (slot) => slot.cells.reduce((sum, cell) => sum + total(cell.counts), 0);
    return this.told.slots.map((slot) => [slot.begins, all(slot) / this.told.seconds]);
  }

  series() {
    const paths = new Map();
    for (const slot of this.told.slots) {
      const left = Math.max(this.x(slot.begins), LEFT);
      const right = Math.min(this.x(slot.begins + this.told.seconds), LEFT + this.inner);
      const width = Math.max(right - left - (right - left > 5 ? 1 : 0), 0);
      let below = 0;
      for (const cell of slot.cells) {
        for (const part of PARTS) {
          const count = sum(cell.counts, part.classes) / this.told.seconds;
          if (count === 0 || width === 0) continue;
          const key = `${part.name} ${cell.revision}`;
          const [x, wide, bottom, top] = [left, width, this.y(below), this.y(below + count)].map((each) => each.toFixed(1));
          const path = paths.get(key) || {part: part.name, revision: cell.revision, d: ""};
          paths.set(key, {...path, d: `${path.d}M${x} ${bottom}h${wide}V${top}h-${wide}z`});
          below += count;
        }
      }
    }
    return [...paths.values()].map(({part, revision, d}) =>
      tinted(drawn("path", {class: `bar ${part} ${colour(revision)}`, d}), revision));
  }

  recent(told) {
    return `${rate(told.requests_per_second)} /s, ${percent(told.errors)} errors`;
  }

  value(cell) {
    const parts = PARTS.slice(1).map((part) => [part.title, sum(cell.counts, part.classes)]).filter(([, count]) => count > 0);
    const told = parts.map(([title, count]) => `${rate(count / this.told.seconds)} /s ${title}`);
    return [`${rate(total(cell.counts) / this.told.seconds)} /s`, ...told].join(", ");
  }
}

export class DurationsChart extends Chart {
  least = 5;

  // The begin of each slot, with the greatest 99th percentile in it.
  values() {
    return this.told.slots.map((slot) => [slot.begins, Math.max(0, ...slot.cells.map((cell) => cell.p99))]);
  }

  series() {
    return revisionsIn(this.told.slots).flatMap((name) => ["p50", "p99"].map((which) =>
      tinted(drawn("path", {class: `line ${which} ${colour(name)}`, d: this.path(name, which)}), name)));
  }

  // A line through the slots that have requests; a gap where there are none.
  path(name, which) {
    let before = null, d = "";
    for (const slot of this.told.slots) {
      const cell = slot.cells.find((each) => each.revision === name);
      if (!cell) continue;
      const follows = d !== "" && before === slot.begins - this.told.seconds;
      const x = this.x(slot.begins + this.told.seconds / 2).toFixed(1), y = this.y(cell[which]).toFixed(1);
      d += follows ? `L${x} ${y}` : `M${x} ${y}h0.1`;
      before = slot.begins;
    }
    return d;
  }

  recent(told) {
    return `p50 ${milliseconds(told.p50)}, p99 ${milliseconds(told.p99)}`;
  }

  value(cell) {
    return `p50 ${milliseconds(cell.p50)}, p99 ${milliseconds(cell.p99)}`;
  }
}
