// Keeps the page of a fleet as the events of the dashboard tell it. The page gives no orders.

import {byId, chip, dated, element, keepColours, setText, span} from "./parts.js";
import {listen, prepareScheme, showLink} from "./frame.js";

const MOST_HAPPENED = 200;
const RUNNING = ["deploying", "promoting"];
const MOST_UNBROKEN = 20;  // characters of a name that stays in one line
const STAGES = {deploying: "Deploying", promoting: "Promoting", successful: "Successful", aborted: "Aborted"};

let state = null;
let happened = [];
let shown = "";  // what was read and is shown, with the day on which it was

// What is told

function takeState(told) {
  if (state && state.session !== told.session) {
    location.reload();  // another dashboard answers, which may have another page
    return;
  }
  state = told;
  happened = told.happened;
  show(true);
}

function takeUpdate(told) {
  if (!state) return;
  state = told;
  happened = [...happened, ...told.happened].slice(-MOST_HAPPENED);
  show(told.happened.length > 0);
}

// What is shown

function show(hasHappened) {
  byId("main").hidden = false;
  setText("fleet", `fleet ${state.fleet}`);
  showAnswers();
  const day = new Date().toDateString(), told = `${day} ${JSON.stringify(state.read)}`, isNewDay = !shown.startsWith(day);
  if (!state.read) setText("phase-name", "Nothing of the fleet is known yet");
  else if (told !== shown) showRead(state.read);  // else a text that a reader has selected would go
  if (hasHappened || isNewDay) showHappened();
  shown = told;
}

// What is to be said of a dashboard or of an etcd that gives no answer; empty where both do.
function silence(isSilent) {
  if (isSilent) return `The dashboard gives no answer. ${state ? `What is shown is from ${dated(state.time)}.` : ""}`;
  if (!state || state.etcd.answers) return "";
  const old = state.etcd.read === null ? "" : ` What is shown is old: it was read at ${dated(state.etcd.read)}.`;
  return `etcd gives no answer since ${dated(state.etcd.since)}: ${state.etcd.fault}.${old}`;
}

// What is wrong although etcd answers; empty where nothing is.
function alarm() {
  if (!state) return "";
  const fault = state.fault ? [`The dashboard could not look at the fleet: ${state.fault}. What is shown may be from before.`] : [];
  const problem = state.read ? state.read.problem : null;
  const problems = problem ? [`Of the fleet's keys, not all can be read: ${problem}.`] : [];
  return [...fault, ...problems].join(" ");
}

function showAnswers(isSilent = false) {
  const silent = silence(isSilent);
  showLink(silent, alarm(), "live");
  if (!state || !state.read) return;
  document.title = `${silent ? "old: " : ""}${titleOf(state.read)} – fleet ${state.fleet}`;
  for (const node of document.querySelectorAll(".read")) {
    node.textContent = `${silent ? "old: " : ""}read at ${dated(state.etcd.read)}`;
    node.className = silent ? "read old" : "read faint";
  }
}

function stageOf({attempt, problem}) {
  if (attempt) return STAGES[attempt.stage];
  return problem ? "The attempt is not known" : "No attempt has begun";
}

function titleOf(read) {
  return read.attempt ? `${stageOf(read)} ${read.attempt.revision}` : stageOf(read);
}

function showRead(read) {
  const machines = [...read.members.map((each) => ({...each, isMember: true})), ...read.others.map((each) => ({...each, isMember: false}))];
  const names = machines.flatMap((each) => [each.active, each.preview, each.stable]);
  const ofAttempt = read.attempt ? [read.attempt.revision, read.attempt.stable] : [];
  keepColours(new Set([...ofAttempt, ...names].filter((name) => name)));
  showAttempt(read);
  showSteps(read.attempt ? read.attempt.steps : []);
  byId("facts").replaceChildren(...facts(read).flatMap(fact));
  showMachines(read, machines);
}

function showAttempt(read) {
  const attempt = read.attempt;
  byId("attempt").dataset.phase = attempt ? attempt.stage : "";
  setText("attempt-title", attempt ? `Attempt ${attempt.id}` : "Attempt");
  setText("phase-name", stageOf(read));
  setText("phase-of", attempt ? attempt.revision : "");
  setText("waits-for", attempt && attempt.since !== null ? `since ${dated(attempt.since)}` : "");
}

function showSteps(steps) {
  const told = JSON.stringify(steps), list = byId("steps");
  if (list.dataset.told === told) return;
  list.dataset.told = told;
  list.replaceChildren(...steps.map((step) => element("li",
    {class: step.state, "data-step": step.name, "aria-current": step.state === "current" ? "step" : false},
    span("dot", ""), span("step-title", step.title), span("unseen", `, ${step.state}`))));
}

function since({time, exact}) {
  return exact ? `since ${dated(time)}` : `since before ${dated(time)}`;
}

// The facts of a read: for each its title, and what it says.
function facts(read) {
  const {attempt, leader, order} = read, led = span("faint", since(read.leader_since));
  const found = [["Waits for", awaited(read)]];
  if (attempt && attempt.reason) found.push(["Reason", [span(attempt.stage === "aborted" ? "bad" : "", attempt.reason)]]);
  if (attempt) {
    const title = RUNNING.includes(attempt.stage) ? "Goes back to" : "Stable revision";
    found.push([title, [chip(attempt.stable), span("", attempt.stable)]]);
    found.push(["Decided by", [attempt.written_by || "a leader that led before the dashboard was started"]]);
  }
  if (attempt && attempt.missing.length > 0) found.push(["Without a vote", [attempt.missing.join(", ")]]);
  found.push(["Leader", [leader || span("bad", "nobody leads, so nothing is decided"), " ", led]]);
  const ordered = order ? `${order.by} orders ${order.order} for attempt ${order.attempt}` : "none stands";
  found.push(["Order", [span(order ? "warn" : "faint", ordered)]]);
  found.push(["Plan", [span(read.plan && read.plan.waits ? "warn" : "", plan(read.plan))]]);
  return found;
}

// What is awaited is known only by the record and the plan.
function awaited({awaited: texts, attempt, plan: told, problem}) {
  if (texts.length > 0) return [element("ul", {}, ...texts.map((text) => element("li", {text})))];
  return [span("faint", problem && !(attempt && told && told.last) ? "not known" : "nothing")];
}

function fact([title, children]) {
  return [element("dt", {text: title}), element("dd", {}, ...children)];
}

function counted(members) {
  return `${members} ${members === 1 ? "member" : "members"}`;
}

function plan(told) {
  if (!told) return "none was put";
  const manner = [...(told.by_hand ? ["a person orders each promotion"] : []),
    ...(told.max_missing > 0 ? [`at most ${counted(told.max_missing)} may be without a vote`] : [])];
  const name = `${told.last || "it can't be read"} (plan ${told.id})`;
  return [told.waits ? `${name} waits for its attempt` : name, ...manner].join("; ");
}

// The machines

function revision(name) {
  if (!name) return [span("faint", "–")];
  return [element("span", {class: name.length > MOST_UNBROKEN ? "revision long" : "revision"}, chip(name), name)];
}

function machineRow(machine, attempt) {
  const cell = (title, ...children) => element("td", {"data-title": title}, ...children);
  const runs = attempt && RUNNING.includes(attempt.stage);
  const isOfAnother = runs && machine.isMember && machine.state !== "away" && machine.attempt !== attempt.id;
  const notes = [...(machine.reason ? [machine.reason] : []), ...(isOfAnother ? ["not of this attempt"] : [])];
  const mark = !machine.isMember ? [span("badge", "no member")] : machine.has_vote ? [] : [span("badge", "no vote")];
  return element("tr", {"data-host": machine.host, "data-state": machine.state},
    element("th", {scope: "row"}, span("name", machine.host), ...mark),
    cell("State", span(`badge state ${machine.state}`, machine.state), ...notes.map((note) => span("note", note))),
    cell("Since", span("faint", `${machine.since.exact ? "" : "before "}${dated(machine.since.time)}`)),
    cell("Awaited", ...(machine.awaited ? [span("badge awaited", machine.awaited)] : [])),
    cell("Phase", span(machine.phase ? "" : "faint", machine.phase || "–")),
    cell("Active", ...revision(machine.active)),
    cell("Preview", ...revision(machine.preview)),
    cell("Stable", ...revision(machine.stable)));
}

function showMachines({member_count: members, away_count: away, unshown, attempt}, machines) {
  const gone = machines.filter((each) => each.isMember && each.state === "away").map((each) => each.host);
  const count = counted(members);
  setText("members", away === 0 ? `${count}, none away` : `${count}, ${away} away: ${gone.join(", ")}`);
  byId("members").className = away === 0 ? "faint" : "bad";
  byId("machines").querySelector("tbody").replaceChildren(...machines.map((each) => machineRow(each, attempt)));
  byId("machines").hidden = machines.length === 0;
  setText("unshown", unshown === 0 ? "" : `${unshown} more machines are not shown.`);
}

function showHappened() {
  byId("happened").replaceChildren(...[...happened].reverse().map((each) => element("li", {class: each.kind},
    element("time", {text: dated(each.time)}), span("text", each.text))));
}

prepareScheme();
listen("api/fleet/events", {state: takeState, update: takeUpdate}, () => showAnswers(true));
