// Keeps the page as the events of the dashboard tell it, and sends the commands of its buttons.

import {byId, chip, clock, element, keepColours, milliseconds, percent, rate, setText, span, titleOf} from "./parts.js";
import {DurationsChart, RequestsChart} from "./charts.js";
import {listen, prepareScheme, showLink} from "./frame.js";

const TOKEN = document.querySelector("meta[name=token]").content;
const SETTLES = 0.7;  // seconds until the last line of a slot has come
const MINUTES = [1, 3, 10];
const TOLD = 20000;  // milliseconds for which the reply to a command is shown
const MANY_ERRORS = 0.01;  // a share that is shown in red
const MOST_HAPPENED = 200, MOST_FAILED = 50;
const COMMANDS = [
  {line: "promote", title: "Promote", kind: "main"},
  {line: "promote full", title: "Promote full", kind: ""},
  {line: "retry", title: "Retry", kind: ""},
  {line: "abort", title: "Abort", kind: "danger"},
];
const PHASES = {
  steady: "Steady",
  scaling: "Scaling",
  preAnalysis: "Analysis before the switch",
  paused: "Paused",
  sizing: "Sizing",
  postAnalysis: "Analysis after the switch",
  aborted: "Aborted",
};

let state = null;
let slots = new Map();
let minutes = 10;
let telling = 0;  // the timer of the reply that is shown
let asked = null;  // what is sent if the question that is open is confirmed

const charts = [new RequestsChart("requests", "Requests a second"), new DurationsChart("durations", "Duration in milliseconds")];

// What is told

function takeState(told) {
  if (state && state.session !== told.session) {
    location.reload();  // another dashboard answers, whose token this page has not
    return;
  }
  slots = new Map(told.slots.map((slot) => [slot.begins, slot]));
  state = told;
  show(true, true);
}

function takeUpdate(told) {
  if (!state) return;
  for (const slot of told.slots) slots.set(slot.begins, slot);
  for (const begins of [...slots.keys()]) if (begins < told.time - state.kept_seconds - state.slot_seconds) slots.delete(begins);
  const happened = [...state.happened, ...told.happened].slice(-MOST_HAPPENED);
  const failed = [...state.failed, ...told.failed].slice(-MOST_FAILED);
  state = {...state, ...told, happened, failed};
  show(told.happened.length > 0, told.failed.length > 0);
}

// Takes an event.
function taken(take) {
  return (told) => {
    Object.setPrototypeOf(told.recent, null);  // a revision may have the name `constructor`
    take(told);
  };
}

// What is shown

function show(hasHappened, hasFailed) {
  byId("main").hidden = false;
  const inSlots = [...slots.values()].flatMap((slot) => slot.cells.map((cell) => cell.revision));
  const inReport = state.report ? state.report.revisions.map((revision) => revision.name) : [];
  keepColours(new Set([...inReport, ...inSlots, ...state.failed.map((each) => each.revision)]));
  showAnswers();
  showAttempt();
  showServices();
  showRevisions();
  showCharts();
  if (hasHappened) showHappened();
  if (hasFailed) showFailed();
}

// What is wrong with a switch that answers, with its controller, and with the dashboard's own looks; empty where nothing is.
function alarm() {
  if (!state) return "";
  const fault = state.fault ? [`The dashboard could not look at the switch: ${state.fault}. What is shown may be from before.`] : [];
  const faults = state.controller ? state.controller.faults : [];
  const journal = state.journal ? [`${state.journal[0].toUpperCase()}${state.journal.slice(1)}.`] : [];
  return [...state.alarms.map((each) => each.text), ...journal, ...faults, ...fault].join(" ");
}

// What is to be said of a dashboard or a switch that gives no answer; empty where both do.
function silence(isSilent) {
  if (isSilent) return `The dashboard gives no answer. ${state ? `What is shown is from ${clock(state.time)}.` : ""}`;
  if (!state || state.switch.answers) return "";
  const {since, fault} = state.switch;
  return `The switch gives no answer since ${clock(since)}: ${fault}. ${state.report ? "What is shown is from before." : ""}`;
}

function showAnswers(isSilent = false) {
  const silent = silence(isSilent);
  showLink(silent, alarm(), state && state.read_only ? "live, read only" : "live");
  if (silent) showCommands(false);
}

function newest() {
  return state.report ? state.report.newest : null;
}

function showAttempt() {
  const report = state.report, phase = report ? report.phase : "";
  setText("control", `at ${typeof state.control === "number" ? "port" : "socket"} ${state.control}`);
  const none = state.switch.answers ? "No book is open yet" : "The state is not known";
  const isAlarmed = state.alarms.length > 0, name = report ? PHASES[phase] : none;
  document.title = `${isAlarmed ? "no endpoint is up" : report ? name : state.switch.answers ? "no book" : "no answer"} – bg_switch ${state.control}`;
  byId("attempt").dataset.phase = phase;
  byId("attempt").toggleAttribute("data-alarm", isAlarmed);
  setText("phase-name", isAlarmed ? `${name}, and no endpoint is up` : name);
  setText("phase-of", report ? titleOf(newest().name) : "");
  setText("waits-for", report ? state.waits_for : state.switch.answers ? "bin/operator sends open, or bin/controller does" : "");
  setText("moment", report ? `moment ${report.moment}` : "");
  const told = JSON.stringify(state.steps), list = byId("steps");
  if (list.dataset.told !== told) {
    list.dataset.told = told;
    list.replaceChildren(...state.steps.map((step) => element("li",
      {class: step.state, "data-step": step.name, "aria-current": step.state === "current" ? "step" : false},
      span("dot", ""), span("step-title", step.title), span("unseen", `, ${step.state}`))));
  }
  showAnalyses();
  showCommands(state.switch.answers);
}

// The analyses of the newest revision, each with its result and the last lines that it has printed.
function showAnalyses() {
  const results = state.results, list = byId("analyses");
  const isOfNewest = results && newest() && results.revision === newest().name && results.number === newest().number;
  const analyses = isOfNewest ? results.analyses : [], told = JSON.stringify(analyses);
  list.hidden = analyses.length === 0;
  if (list.dataset.told === told) return;
  list.dataset.told = told;
  list.replaceChildren(...analyses.map((each) => element("li", {class: each.result, "data-analysis": each.analysis, "data-name": each.name},
    element("p", {}, span("name", `analysis ${each.analysis}${each.name ? ` ${each.name}` : ""}`),
      span("badge result", each.result), span("faint", each.reason)),
    ...each.last.map((line) => element("p", {class: "faint printed", text: line})))));
}

function showCommands(maySend) {
  const box = byId("orders");
  box.hidden = Boolean(state && state.read_only);
  if (!state || state.read_only) return;
  if (!box.children.length) {
    box.append(...COMMANDS.map((command) => {
      const button = element("button", {type: "button", class: command.kind, "data-order": command.line, text: command.title});
      button.addEventListener("click", () => ask(command));
      return button;
    }));
  }
  for (const button of box.children) button.disabled = !maySend || !state.orders[button.dataset.order];
}

function showServices() {
  const report = state.report, cards = ["active", "preview"].map((service) => {
    const name = report ? report[service].name : "–", number = report ? `revision ${report[service].number}` : "";
    const isAlarmed = state.alarms.some((each) => each.service === service);
    return element("div", {class: "card", "data-service": service, "data-alarm": isAlarmed},
      element("h3", {text: `${service} service`}),
      element("p", {class: "selected"}, ...(report ? [chip(name)] : []), span("name", name)),
      element("p", {class: isAlarmed ? "bad" : "faint", text: isAlarmed ? `${number}: no endpoint is up` : number}));
  });
  byId("services").replaceChildren(...cards);
}

function scaleDown(revision, moment) {
  if (revision.desired === 0) return ["scaled down", "faint"];
  if (revision.cut) return [`draining: ${revision.open} open requests are given up`, "warn"];
  if (revision.draining) return [`draining: waits for ${revision.open} open requests`, "warn"];
  if (revision.deadline === null) return ["", ""];
  return [`in ${Math.max(revision.deadline - moment, 0)} s`, ""];
}

function endpoints(revision, isAlarmed) {
  const made = element("span", {class: "endpoints"}), width = Math.min(revision.desired, 16);
  for (let place = 0; place < width; place += 1) {
    const isUp = place < revision.available * width / revision.desired;
    made.append(span(isUp ? "up" : isAlarmed ? "down all" : "down", ""));
  }
  return [span(isAlarmed ? "count bad" : "count", `${revision.available} of ${revision.desired}`), made];
}

// A line for each endpoint that had requests in the last seconds.
function ports(recent) {
  const told = ({port, requests_per_second: requests, errors}) => element("li", {class: errors >= MANY_ERRORS ? "bad" : "",
    text: `${port}: ${rate(requests)} /s${errors > 0 ? `, ${percent(errors)} errors` : ""}`});
  return recent && recent.ports.length > 0 ? [element("ul", {class: "ports"}, ...recent.ports.map(told))] : [];
}

function revisionRow(revision, report) {
  const services = ["active", "preview", "stable", "newest"].filter((service) => report[service].number === revision.number);
  const recent = state.recent[revision.name], [text, kind] = scaleDown(revision, report.moment);
  const cell = (title, kind, ...children) => element("td", {class: kind, "data-title": title}, ...children);
  const isBad = recent && recent.errors >= MANY_ERRORS;
  const isAlarmed = state.alarms.some((each) => each.revision === revision.name);
  return element("tr", {"data-revision": revision.name, class: revision.desired === 0 ? "down" : ""},
    element("th", {scope: "row"}, chip(revision.name), span("name", revision.name),
      span("faint after", `revision ${revision.number}`)),
    cell("Selected by", "", ...services.map((service) => span(`badge ${service}`, service))),
    cell("Endpoints", "", ...endpoints(revision, isAlarmed), ...ports(recent)),
    cell("Open requests", "number", `${revision.open}`),
    cell("Requests/s", "number", recent ? rate(recent.requests_per_second) : "–"),
    cell("Errors", isBad ? "number bad" : "number", recent ? percent(recent.errors) : "–"),
    cell("p99", "number", recent ? milliseconds(recent.p99) : "–"),
    cell("Scale-down", kind, text));
}

function showRevisions() {
  const report = state.report, body = byId("revisions").querySelector("tbody");
  const rows = report ? [...report.revisions].sort((one, other) => other.number - one.number) : [];
  body.replaceChildren(...rows.map((revision) => revisionRow(revision, report)));
}

function aboutLog(log) {
  if (log.path === "") return "No access log is read: --log FILE names it.";
  if (log.fault) return `${log.path} can't be read: ${log.fault}`;
  return log.lost ? `${log.lost} lines of the log were lost` : "";
}

function showCharts() {
  setText("log", aboutLog(state.log));
  // up to the end of the latest slot that is over, since a part of a slot would look like fewer requests
  const to = Math.floor((state.time - SETTLES) / state.slot_seconds) * state.slot_seconds, from = to - minutes * 60;
  const seen = [...slots.values()].filter((slot) => slot.begins >= from && slot.begins < to)
    .sort((one, other) => one.begins - other.begins);
  const marks = state.happened.filter((each) => each.mark && each.time > from && each.time <= to);
  for (const chart of charts) chart.take({from, to, seconds: state.slot_seconds, slots: seen, marks, recent: state.recent});
}

function showHappened() {
  byId("happened").replaceChildren(...[...state.happened].reverse().map((each) => element("li", {class: each.kind},
    element("time", {text: clock(each.time)}),
    span("faint", each.moment === null ? "" : `${each.moment}`),
    span("text", each.text.replaceAll("->", "→")))));
}

function failedRow(each) {
  const hasNone = each.status === null, answer = hasNone ? "none" : `${each.status}`;
  const why = each.reason || (hasNone ? each.end : "");
  const request = `${each.method || "–"} ${each.target || ""}`;
  return element("tr", {},
    element("td", {"data-title": "Time", text: clock(each.time)}),
    element("td", {"data-title": "Revision"}, chip(each.revision), titleOf(each.revision)),
    element("td", {"data-title": "Request", class: "target", title: request, text: request}),
    element("td", {"data-title": "Answer"}, span("bad", answer), span("faint after", why)),
    element("td", {"data-title": "Duration", class: "number", text: milliseconds(each.duration_ms)}));
}

function showFailed() {
  byId("none-failed").hidden = state.failed.length > 0;
  byId("failed").hidden = state.failed.length === 0;
  byId("failed").querySelector("tbody").replaceChildren(...[...state.failed].reverse().map(failedRow));
}

// Commands

function question(line) {
  const {active, stable} = state.report, name = newest().name;
  const moves = active.name === name ? "" : ` The active service then moves from ${active.name} to ${name}.`;
  return {
    promote: [`Promote ${name}?`, `Its pause ends.${moves}`],
    "promote full": [`Promote ${name} in full?`,
      `Its analyses and pauses are skipped; its endpoints are still waited for.${moves}`],
    abort: [`Abort the attempt of ${name}?`, `Both services go back to ${stable.name}, the stable revision.`],
    retry: [`Try ${name} again?`, "Its attempt begins again from its first step."],
  }[line];
}

function ask(command) {
  const [title, text] = question(command.line);
  asked = {order: command.line, revision: newest().number};
  setText("question-title", title);
  setText("question-text", text);
  setText("confirm", command.title);
  byId("confirm").className = command.kind || "main";
  byId("question").showModal();
  byId("cancel").focus();
}

function tell(text, kind) {
  setText("reply", text);
  byId("reply").className = kind;
  clearTimeout(telling);
  telling = setTimeout(() => setText("reply", ""), TOLD);
}

async function send(command) {
  const line = command.order;
  tell(`${line}: sent`, "");
  try {
    const headers = {"Content-Type": "application/json", "X-Token": TOKEN};
    const answer = await fetch("api/order", {method: "POST", headers, body: JSON.stringify(command)});
    const told = await answer.json();
    if (!answer.ok) tell(`${line}: ${told.fault}`, "bad");
    else if (told.carried_out && told.meaning) tell(`${line}: ${told.reply}: ${told.meaning}`, "bad");
    else if (told.carried_out) tell(`${line}: carried out`, "good");
    else tell(`${line}: ${told.reply}: ${told.meaning}`, "bad");
  } catch (error) {
    tell(`${line}: the dashboard gives no answer`, "bad");
  }
}

function prepareQuestion() {
  const dialog = byId("question");
  byId("cancel").addEventListener("click", () => dialog.close());
  byId("confirm").addEventListener("click", () => {
    dialog.close();
    send(asked);
  });
}

// The time that is shown

function prepareMinutes() {
  const told = Number(new URLSearchParams(location.hash.slice(1)).get("minutes"));
  minutes = MINUTES.includes(told) ? told : minutes;
  byId("minutes").append(...MINUTES.map((each) => {
    const input = element("input", {type: "radio", name: "minutes", value: `${each}`, checked: each === minutes});
    input.addEventListener("change", () => {
      minutes = each;
      history.replaceState(null, "", `#minutes=${each}`);
      if (state) showCharts();
    });
    return element("label", {}, input, element("span", {text: `${each} min`}));
  }));
}

prepareQuestion();
prepareScheme();
prepareMinutes();
listen("api/events", {state: taken(takeState), update: taken(takeUpdate)}, () => showAnswers(true));
