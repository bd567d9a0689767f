"use strict";
// The participant's page of an auction office. Texts of others come into it as text alone, never as HTML.
const REASONS = {{ reasons }};
const RULES = {{ rules }};
const LOOK = 2000; // milliseconds between two looks at the day
const PATIENCE = 10_000; // milliseconds that a look waits for an answer
const SLOW = 1000; // milliseconds after which it is told that an answer is waited for
const RETRIES = 5; // of a command whose answer didn't come: the same number can't enter it twice
const MOST_REFUSED = 3; // that a message names
const TOLD = [[600, "10 minutes"], [60, "1 minute"]]; // when the time left is announced
const NOBODY = {
  token: "", next: 1, count: -1, share: "", orders: [], changes: null, amended: null, draft: null, read: [], results: [], awaits: false, unsure: null,
  last: { kind: "hour", side: "buy" },
};
const OWN = ["orders-table", "commands-table", "statement", "prices", "position", "totals", "figures", "groups", "unsent"]; // what is shown of it
const state = {
  ...NOBODY, token: sessionStorage.getItem("token") ?? "", day: null, known: null, demo: false, visit: 0, looks: null, told: 0, about: "",
  sure: null,
};

{% include "office_parts.js" %}
{% include "office_results.js" %}

class Fault extends Error {
  constructor(status, fault, words) {
    super(words);
    Object.assign(this, { status, fault });
  }
}

function who() {
  return state.token.split(".")[0];
}

// Says it until something else is said, or until what it is `about` is over: a look that failed, or fields that are marked. What is about
// commands of which nobody knows what became of them isn't replaced by a look that fails. The words may be a list with elements.
function say(words, kind = "right", about = "") {
  byId("message").replaceChildren(...[words].flat());
  byId("message").className = words.length ? kind : "";
  state.about = about;
}

function sayFault(fault, about = "") {
  if (fault.fault !== "Left") say(`${sentence(fault.message)}.`, "wrong", about);
}

// An answer in text. What comes after another participant has signed in, or after another day was chosen, is for nobody.
async function ask(path, how = {}) {
  const { visit } = state;
  const headers = { ...how.headers };
  if (state.token) headers.Authorization = `Bearer ${state.token}`;
  let answer;
  let text;
  try {
    answer = await fetch(path, { ...how, headers, cache: "no-store", credentials: "omit" });
    text = await answer.text();
  } catch {
    throw new Fault(0, visit === state.visit ? "Unreached" : "Left", "the office can't be reached");
  }
  if (visit !== state.visit) throw new Fault(0, "Left", "you have left");
  if (answer.ok) return text;
  let found = { fault: "Unknown", words: `the office answered ${answer.status}` };
  try {
    found = JSON.parse(text);
  } catch {} // an answer of something in between
  throw new Fault(answer.status, found.fault, found.words);
}

const json = async (path, how) => JSON.parse(await ask(path, how));
const own = (what) => `/days/${state.day}/${what}/${who()}`;
const periodWords = (number) => `${number} (${state.known.begins[number - 1]})`;
const isOpen = () => state.known.state === "open";
// What a day without a time left says of itself.
const ENDS = { closing: "closed, results are coming", closed: "closed, results are coming", stopped: "stopped: ask the operator" };

// Whether the participant is sure. A question that follows at once waits for the answer to the one before: a dialog tells late that it was
// closed, which would answer both.
async function sure(words, yes) {
  await state.sure;
  const dialog = byId("sure");
  byId("sure-words").textContent = words;
  byId("yes").textContent = yes;
  dialog.returnValue = "";
  dialog.showModal();
  byId("no").focus();
  state.sure = new Promise((done) => dialog.addEventListener("close", () => done(dialog.returnValue === "yes"), { once: true }));
  return state.sure;
}

// --- signing in

async function signIn(token) {
  token = token.trim();
  if (!/^[A-Z]{1,8}\.[\w-]+$/.test(token)) return refuse();
  state.visit += 1;
  state.token = token;
  try {
    await json(own("orders"));
  } catch (fault) {
    state.token = "";
    if (fault.fault === "Token") refuse();
    else sayFault(fault);
    return;
  }
  sessionStorage.setItem("token", state.token);
  say("");
  fresh();
  show();
  await look();
  byId("title").focus();
}

function refuse() {
  say("This isn't a token of this office, or it was revoked.", "wrong");
  byId("token").focus();
}

// The page as it is before anyone has signed in: nothing of a participant stays for the next one.
function fresh() {
  Object.assign(state, { ...NOBODY, token: state.token, told: 0 });
  if (byId("sure").open) byId("sure").close("");
  for (const id of OWN) byId(id).replaceChildren();
  byId("announced").textContent = byId("token").value = "";
  byId("results").hidden = true;
  byId("commands-list").open = false;
  for (const form of document.forms) form.reset();
  for (const id of ["period", "fill-from"]) byId(id).value = "1";
  byId("fill-to").value = String(state.known.periods);
  drop();
  change(null);
  byId("example").replaceChildren(table("An example", TEMPLATE[0].map((head) => [head]), templateRows().slice(1)));
}

function signOut() {
  sessionStorage.removeItem("token");
  state.visit += 1;
  state.token = "";
  fresh();
  say("You are signed out.");
  show();
  byId("token").focus();
}

// The office doesn't know the token any more.
function endToken() {
  const words = ["Your token isn't valid any more: the operator has renewed or revoked it.", ...toLose()];
  signOut();
  say(words.join("\n"), "wrong");
}

function show() {
  byId("sign-in").hidden = state.token !== "";
  byId("signed-in").hidden = state.token === "";
  byId("who").textContent = who();
}

// --- the day

async function days() {
  const { days: found, demo } = await json("/days");
  if (!found.length) throw new Fault(0, "None", "there is no day");
  byId("days-label").hidden = found.length < 2;
  options(byId("days"), found.map((day) => [day.day, `${day.day} (${day.state})`]));
  const open = found.find((day) => day.state === "open") ?? found.at(-1);
  byId("days").value = state.day ?? open.day;
  await choose(byId("days").value);
  state.demo = demo;
  byId("demo").hidden = !demo;
  if (demo) {
    const { participants } = await json("/demo");
    byId("demo-names").replaceChildren(...Object.entries(participants).map(([name, token]) => {
      const button = element("button", { type: "button", textContent: name });
      button.addEventListener("click", () => signIn(token));
      return button;
    }));
  }
}

// Whether the participant leaves what is lost then; without a question if nothing is.
async function leaves(question, yes) {
  const lost = toLose();
  return !lost.length || sure(`${lost.join(" ")} ${question}`, yes);
}

async function changeDay() {
  const chosen = byId("days").value;
  byId("days").value = state.day;
  if (!(await leaves(`Leave ${state.day} without it?`, `Leave ${state.day}`))) return;
  try {
    await choose(chosen);
    byId("days").value = chosen;
    await look();
  } catch (fault) {
    sayFault(fault);
  }
}

async function choose(day) {
  state.visit += 1;
  const known = await json(`/days/${day}`);
  Object.assign(state, { day, known });
  const periods = state.known.begins.map((_, at) => [at + 1, periodWords(at + 1)]);
  for (const id of ["period", "fill-from", "fill-to"]) options(byId(id), periods);
  byId("grid").replaceChildren(...periods.map(([number, words]) => {
    const input = element("input", { inputMode: "decimal", autocomplete: "off" });
    input.dataset.period = number;
    input.setAttribute("aria-describedby", "grid-fault");
    return element("label", { textContent: words }, input);
  }));
  fresh();
  say(""); // of another day
  showDay();
}

const secondsLeft = () => (state.known.until ? Math.max(0, state.known.until - performance.now()) / 1000 : state.known.seconds_left);

function showDay() {
  const day = state.known;
  const ends = new Date(day.closes);
  const timeStyle = ends.getUTCSeconds() ? "medium" : "short"; // a demo closes at a second
  const closes = ends.toLocaleString("en-GB", { timeZone: day.zone, dateStyle: "medium", timeStyle });
  const when = isOpen() ? `It closes on ${closes} (${day.zone}).` : `It is ${day.state === "stopped" ? "stopped" : "closed"}.`;
  for (const option of byId("days").options) if (option.value === day.day) option.textContent = `${day.day} (${day.state})`;
  byId("where").textContent = `Delivery day ${day.day}, ${day.periods} periods. ${when}`;
  for (const part of document.querySelectorAll(".zone")) part.textContent = day.zone;
  figures([
    ["time left", isOpen() ? left(secondsLeft()) : ENDS[day.state] ?? "closed", "left"],
    ["your orders in the book", shown(state.orders.length, 0)],
    ["your commands", `${shown(state.next - 1, 0)} of ${shown(state.share, 0)}`],
    ["entries in the journal", shown(day.entries, 0)],
  ]);
  for (const part of lefts()) part.classList.toggle("late", isOpen() && day.seconds_left < 60);
  for (const part of document.querySelectorAll(".left")) part.textContent = left(secondsLeft());
  byId("entry").hidden = byId("upload").hidden = !isOpen();
  byId("demo-close").hidden = !state.demo || !isOpen();
  for (const link of document.querySelectorAll("#jumps a")) link.parentElement.hidden = !byId(link.hash.slice(1)).checkVisibility();
  byId("head").href = `/days/${day.day}/head`;
  byId("no-journal").hidden = day.has_journal;
  byId("journal").hidden = !day.has_journal;
  byId("journal").href = `/days/${day.day}/journal`;
}

// Where the time left stands: among the figures, and by each form.
const lefts = () => document.querySelectorAll("#left, .left");

function tick() {
  if (!state.token || !state.known?.until || !isOpen() || !byId("left")) return;
  for (const part of lefts()) part.textContent = left(secondsLeft());
  announce(secondsLeft());
}

// Tells how much time is left, when it becomes so much.
function announce(seconds) {
  for (const [mark, words] of TOLD) if (seconds <= mark && mark < state.told) byId("announced").textContent = `${words} left`;
  state.told = seconds;
}

async function look() {
  const { visit } = state;
  if (!state.token || byId("signed-in").hidden || !state.known || state.looks === visit) return;
  state.looks = visit;
  try {
    const before = state.known;
    const found = await json(`/days/${state.day}`, { signal: AbortSignal.timeout(PATIENCE) });
    found.until = performance.now() + 1000 * found.seconds_left;
    state.known = found;
    if (before.state === "open" && !isOpen()) end();
    await lookAtCommands();
    const isNew = found.has_statement && byId("results").hidden;
    if (isNew) await showResults();
    showDay();
    if (state.about === "look") say("");
    if (isNew) tellResults();
  } catch (fault) {
    if (fault.fault === "Token") endToken();
    else if (fault.status !== 429 && state.about !== "unsure") sayFault(fault, "look"); // after many requests, the next look comes soon enough
  } finally {
    if (state.looks === visit) state.looks = null;
  }
}

// Of each order and table that was being written: that it wasn't sent.
function unsentLines() {
  const { fields, grid } = state.changes ? state.draft : draft();
  const unsent = [];
  if (state.changes) unsent.push(`The change of ${state.changes} wasn't sent.`);
  const isWritten = WRITTEN.some((id) => fields[id]) || grid.some(Boolean);
  if (isWritten) unsent.push(`Your unfinished order${fields.name && ` ${fields.name}`} wasn't sent.`);
  const count = state.read.length;
  if (count) unsent.push(`The ${counted(count, "row")} of your table ${count === 1 ? "wasn't" : "weren't"} sent.`);
  return unsent;
}

const toLose = () => (isOpen() ? unsentLines() : []);

// The day is closed or stopped: says so, with what was being written.
function end() {
  const unsure = state.about === "unsure" ? [`${unsureWords(state.unsure.commands)}.`] : [];
  byId("unsent").textContent = [...unsure, ...unsentLines()].join("\n");
  state.count = -1;
  state.awaits = true;
  if (byId("sure").open) byId("sure").close("");
  const isLost = byId("entry").contains(document.activeElement) || byId("upload").contains(document.activeElement);
  const isStopped = state.known.state === "stopped";
  say(`The day is ${isStopped ? "stopped" : "closed"}.`, isStopped ? "wrong" : "right");
  if (isLost) byId("orders-title").focus();
}

async function lookAtCommands() {
  const { next, share } = await json(`${own("commands")}?since=99999`);
  state.share = share;
  if (next - 1 === state.count) return;
  const [{ orders }, all] = await Promise.all([json(own("orders")), json(own("commands"))]);
  Object.assign(state, { orders, next: Math.max(state.next, all.next), count: all.next - 1 });
  showOrders();
  if (state.about === "unsure") tellUnsure(all.commands);
  const later = laterWords(all.commands);
  const rows = all.commands.reverse().map(({ number, entry, record, reply }) => {
    const command = commandOf(record);
    const { what, order } = command;
    const told = replyWords(reply, command, later.get(number));
    return [String(number), what === "submit" ? "enter" : what, order, told, ...orderCells(command), element("span", { title: record, textContent: entry })];
  });
  const heads = [["your command", "n"], ["does"], ["order"], ["reply", "why"], ...ORDER_HEADS, ["entry in the journal", "n"]];
  byId("commands-count").textContent = rows.length ? `${counted(rows.length, "command")}, with the book's replies` : "You have entered no command yet";
  byId("commands-table").replaceChildren(...(rows.length ? [table("Each command with the book's reply, the last one first", heads, rows)] : []));
}

function showOrders() {
  const heads = [["order"], ...(isOpen() ? [["change"]] : []), ...ORDER_HEADS];
  const rows = state.orders.map((order) => {
    const buttons = [["Amend", change], ["Cancel", cancel]].map(([words, does]) => {
      const button = element("button", { type: "button", textContent: words, ariaLabel: `${words} ${order.order}` });
      button.addEventListener("click", () => does(order));
      return button;
    });
    return [order.order, ...(isOpen() ? [element("span", {}, ...buttons)] : []), ...orderCells(order)];
  });
  byId("orders-table").replaceChildren(rows.length ? table("Your orders, as the book has them", heads, rows) : "You have no order in the book.");
  const blocks = state.orders.filter((order) => order.kind === "block");
  options(byId("parent"), [["", "none"], ...blocks.map((order) => [order.order, order.order])]);
  byId("groups").replaceChildren(...[...new Set(blocks.map((order) => order.group).filter(Boolean))].map((value) => element("option", { value })));
  byId("overtaken").textContent = overtakenWords();
}

// --- entering

// The answer of a request, which is sent again if none comes, or if the office can't answer it yet. The words are shown meanwhile.
async function answered(path, how, words) {
  const { visit } = state;
  for (let time = 1; ; time += 1) {
    const waits = setTimeout(() => visit === state.visit && say(words), SLOW);
    try {
      return await ask(path, how).finally(() => clearTimeout(waits));
    } catch (fault) {
      if (time === RETRIES || fault.fault === "Left" || ![0, 429, 503].includes(fault.status)) throw fault;
      say(`${sentence(fault.message)}; trying again`, "wrong");
      await new Promise((done) => setTimeout(done, 1000 * time));
    }
  }
}

// The number is that of all tries, also if a look finds the command entered in the meantime.
async function put(commands, number) {
  const how = { method: "PUT", body: JSON.stringify(commands), headers: { "Content-Type": "application/json" } };
  const { subject, is } = namesOf(commands);
  const text = await answered(`${own("commands")}/${number}`, how, `${subject} ${is} being sent: the office hasn't answered yet.`);
  const receipts = text.trim().split("\n").map((line) => JSON.parse(line));
  state.next = Math.max(state.next, number + receipts.length);
  return receipts;
}

// What became of commands, in words.
function outcomeWords(commands, receipts) {
  const refused = commands.map((command, at) => [command, receipts[at].reply]).filter(([, reply]) => reply !== "done");
  const words = ([command, reply]) => `${command.order} wasn't ${DONE[command.what]}: ${reasonOf(reply, command)}${childrenWords(reply, command)}.`;
  const lines = refused.slice(0, MOST_REFUSED).map(words);
  if (refused.length > MOST_REFUSED) lines.push(`${refused.length - MOST_REFUSED} more were refused: your commands below have the reasons.`);
  if (refused.length) lines.push(`The book's ${refused.length === 1 ? "refusal is" : "refusals are"} on the disk, ${refused.length > 1 ? "each " : ""}with a signed receipt.`);
  const [first] = commands;
  const done = commands.length - refused.length;
  const right = commands.length === 1 ? `${first.order} ${DONE[first.what]}${termsOf(first)}. It is` : `${counted(done, "command")} done,`;
  if (done) lines.unshift(`${right} on the disk, ${done > 1 ? "each " : ""}with a signed receipt.`);
  return [lines.join("\n"), refused.length ? "wrong" : "right"];
}

const UNSURE = [0, 503]; // of an answer after which a command may be entered

// What a message calls commands.
function namesOf(commands) {
  const [{ what, order }] = commands;
  if (commands.length === 1) return { subject: order, is: "is", was: "was", done: DONE[what] };
  return { subject: `The ${commands.length} commands`, is: "are", was: "were", done: "entered" };
}

// Of commands that the office refuses, or of which no answer came.
function failureWords(commands, { status, fault, message }) {
  const { subject, was, done } = namesOf(commands);
  const why = fault === "NumberUsed" ? "another command of yours came first. Look in Your commands, and send it again" : message;
  if (!UNSURE.includes(status)) return `${subject} ${was}n't ${done}: ${why}.`;
  return `${sentence(message)}. ${unsureWords(commands)} once it's back.`;
}

function unsureWords(commands) {
  const { subject, was, done } = namesOf(commands);
  return `We don't know whether ${subject.replace("The ", "the ")} ${was} ${done}: look in Your orders`;
}

// Says what became of commands of which no answer came. A command that isn't there yet may be sent again: it keeps its number.
function tellUnsure(all) {
  const { commands, number } = state.unsure;
  const own = all.slice(number - 1, number - 1 + commands.length).map((one) => ({ ...commandOf(one.record), reply: one.reply }));
  const found = own.filter(({ what, order }, at) => what === commands[at].what && order === commands[at].order);
  if (found.length === commands.length) return say(...outcomeWords(found, found)); // as the book has them
  const { subject, is } = namesOf(commands);
  const words = found.length
    ? `${found.length} of ${subject.replace("The ", "the ")} are in the book so far: look in Your commands.`
    : `The office answers again. ${subject} ${is}n't among your commands so far: send it again, it can't be entered twice.`;
  say(words, "wrong", "unsure");
}

// Enters commands, and looks again. Only if it isn't known what became of them, the look is waited for. Returns whether all are done; null
// if the office refused them, or no answer came.
async function enter(commands) {
  const parts = document.querySelectorAll("#signed-in button, #days");
  const { visit } = state;
  const again = async () => {
    if (visit !== state.visit) return;
    Object.assign(state, { looks: null, count: -1 });
    await look();
  };
  for (const part of parts) part.disabled = true;
  const number = state.next;
  try {
    const [words, kind] = outcomeWords(commands, await put(commands, number));
    say(words, kind);
    again();
    return kind === "right";
  } catch (fault) {
    if (fault.fault !== "Left") {
      state.unsure = { commands, number };
      say(failureWords(commands, fault), "wrong", UNSURE.includes(fault.status) ? "unsure" : "");
    }
    await again();
    return null;
  } finally {
    for (const part of parts) part.disabled = false;
  }
}

async function cancel({ order }) {
  say("");
  if (!(await sure(`Cancel ${order}? It leaves the book, and loses its place there.`, `Cancel ${order}`))) return;
  if (await enter([{ what: "cancel", order }]) && state.changes === order) change(null);
  if (state.token) byId("orders-title").focus();
}

const cells = () => [...byId("grid").querySelectorAll("input")];
const kindChosen = () => document.querySelector("input[name=kind]:checked").value;

// The command of the form; null if a field is wrong.
function command() {
  const kind = kindChosen();
  const filled = cells().filter((input) => input.value.trim());
  const some = () => ({ fault: "Write a volume for at least one period." });
  const isFilled = filled.length || byId("fill-volume").value.trim();
  const grid = isFilled ? filled.map((input) => [input, volumeRule, `Period ${input.dataset.period}: `]) : [[cells()[0], some]];
  for (const input of cells()) mark(input, "");
  const own = kind === "hour" ? [[byId("volume"), volumeRule]] : [[byId("group"), groupRule], [byId("fill-volume"), unfilledRule], ...grid];
  const values = valuesOf([[byId("name"), nameRule], [byId("price"), limitRule], ...own]);
  if (!values) return null;
  const [order, price, ...rest] = values;
  const volumes = kind === "hour" ? [[Number(byId("period").value), rest[0]]] : filled.map((input, at) => [Number(input.dataset.period), rest[2 + at]]);
  if (state.changes) return { what: "amend", order, price, volumes };
  return { what: "submit", order, kind, side: byId("side").value, price, volumes, ...(kind === "block" ? { parent: byId("parent").value, group: rest[0] } : {}) };
}

function showKind() {
  const kind = kindChosen();
  for (const part of document.querySelectorAll(".hourly")) part.hidden = kind !== "hour";
  for (const part of document.querySelectorAll(".blocks")) part.hidden = kind !== "block";
}

// A volume that was written, and not filled in, would be lost.
function unfilledRule(words) {
  const [from, to] = ["fill-from", "fill-to"].map((id) => Number(byId(id).value));
  if (!words) return { value: null };
  const { fault } = volumeRule(words);
  if (fault) return { fault };
  if (from > to) return { fault: `Period ${from} is after period ${to}: ${words} MW isn't filled in.` };
  const where = from === to ? `period ${from}` : `periods ${from} to ${to}`;
  return { fault: `${words} MW for ${where} isn't filled in: press Fill in, or empty the box.` };
}

function fill() {
  say("");
  const [from, to] = ["fill-from", "fill-to"].map((id) => Number(byId(id).value));
  const later = () => (from <= to ? { value: to } : { fault: `Period ${from} is after period ${to}: nothing is filled in.` });
  if (!valuesOf([[byId("fill-volume"), volumeRule], [byId("fill-to"), later]])) return;
  for (const input of cells()) {
    if (from <= input.dataset.period && input.dataset.period <= to) {
      input.value = byId("fill-volume").value.trim();
      mark(input, "");
    }
  }
  byId("fill-volume").value = "";
}

// Volumes that were copied from cells of a spreadsheet, put into the periods from this one on.
function paste(event) {
  const given = event.clipboardData.getData("text").replace(/\r?\n$/, "").split(/\t|\r?\n/);
  if (given.length < 2) return;
  event.preventDefault();
  say("");
  const from = cells().indexOf(event.target);
  const places = cells().slice(from, from + given.length);
  const isFitting = places.length === given.length;
  mark(event.target, isFitting ? "" : `${given.length} volumes from period ${from + 1} on go past the last period, ${cells().length}: nothing is pasted.`);
  for (const [at, input] of isFitting ? places.entries() : []) {
    input.value = given[at].trim();
    mark(input, "");
  }
}

const WRITTEN = ["name", "price", "volume", "group", "fill-volume"]; // the fields that are empty in a new form
const FIELDS = [...WRITTEN, "side", "period", "parent", "fill-from", "fill-to"];

// What the form has.
function draft() {
  const fields = Object.fromEntries(FIELDS.map((id) => [id, byId(id).value]));
  return { kind: kindChosen(), fields, grid: cells().map((input) => input.value) };
}

function restore({ kind, fields, grid }) {
  document.querySelector(`input[name=kind][value=${kind}]`).checked = true;
  for (const [id, value] of Object.entries(fields)) byId(id).value = value;
  cells().forEach((input, at) => { input.value = grid[at]; });
}

// Makes the form one for a change of an order, or for a new one: the one that was being written before the change, or else one that begins
// with the kind, side and periods of the last one.
function change(order) {
  if (order && !state.changes) state.draft = draft();
  Object.assign(state, { changes: order?.order ?? null, amended: order });
  byId("overtaken").textContent = "";
  for (const id of [...WRITTEN, "parent"]) byId(id).value = "";
  for (const input of cells()) input.value = "";
  for (const input of byId("order-form").querySelectorAll("[aria-invalid]")) mark(input, "");
  for (const part of [byId("name"), byId("side"), byId("parent"), byId("group"), byId("kinds")]) part.disabled = Boolean(order);
  byId("keep").hidden = byId("fixed").hidden = !order;
  byId("entry-title").textContent = order ? `Amend ${order.order}` : "Enter an order";
  byId("enter").textContent = order ? "Amend the order" : "Enter the order";
  const { kind, side } = order ?? state.last;
  document.querySelector(`input[name=kind][value=${kind}]`).checked = true;
  byId("side").value = side;
  if (order) fillWith(order);
  else if (state.draft) restore(state.draft);
  if (!order) state.draft = null;
  showKind();
  if (order) {
    say("");
    byId("price").focus();
  }
}

function fillWith({ order, kind, price, volumes, parent, group }) {
  byId("name").value = order;
  byId("parent").value = parent;
  byId("group").value = group;
  byId("price").value = fixed(price, 2);
  if (kind === "hour") {
    byId("period").value = String(volumes[0][0]);
    byId("volume").value = fixed(volumes[0][1], 1);
  }
  for (const [period, volume] of volumes) byId("grid").querySelector(`input[data-period="${period}"]`).value = fixed(volume, 1);
}

const inBook = (name) => state.orders.find(({ order }) => order === name);
const isAsBefore = (order) => orderCells(order).join() === orderCells(state.amended).join();

// What became of the order that is being changed, by another tab or program; empty if it is as it was.
function overtakenWords() {
  if (!state.changes) return "";
  const order = inBook(state.changes);
  if (!order) return `${state.changes} isn't in the book any more.`;
  const [, , limit, volumes] = orderCells(order);
  return isAsBefore(order) ? "" : `${state.changes} was changed in the meantime: in the book its limit is ${limit} EUR/MWh, and its volumes by period are ${volumes} MW.`;
}

async function enterOrder(event) {
  event.preventDefault();
  say("");
  const made = command();
  if (!made) return say("Nothing was sent: look at the marked fields.", "wrong", "fields");
  const overtaken = inBook(state.changes) ? overtakenWords() : "";
  if (overtaken && !(await sure(`${overtaken} Amend it to the values of this form?`, `Amend ${state.changes}`))) return byId("price").focus();
  if (await enter([made])) {
    if (made.what === "submit") state.last = { kind: made.kind, side: made.side };
    change(null);
    byId("name").focus();
  } else if (state.token && isOpen()) {
    byId(made.what === "submit" ? "name" : "price").focus();
  }
}

// --- a table

const TEMPLATE = [
  ["participant", "order", "kind", "side", "price_eur_mwh", "periods", "volume_mw", "parent", "group"],
  ["UNIT-8", "hour", "sell", "60.00", "8", "50", "", ""],
  ["RUN", "block", "sell", "68.00", "08:00-12:00", "15", "", ""], // 9-12 would be a date to a spreadsheet
];
const templateRows = () => TEMPLATE.map((row, at) => (at ? [who() || "GAS", ...row] : row));
const template = () => templateRows().map((row) => `${row.join(",")}\n`).join("");

// A browser doesn't read a file that was written since it was chosen.
async function bytesOf(file) {
  try {
    return await file.arrayBuffer();
  } catch {
    throw new Fault(0, "Changed", "the file has changed since you chose it");
  }
}

async function upload(event) {
  event.preventDefault();
  say("");
  state.read = [];
  byId("read").hidden = true;
  const [file] = byId("file").files;
  mark(byId("file"), file ? "" : "Choose a file.");
  if (!file) return byId("file").focus();
  say("The table is being read.");
  byId("read-file").disabled = true;
  try {
    const how = { method: "POST", body: await bytesOf(file), headers: { "Content-Type": "application/octet-stream" } };
    const { records, notes } = JSON.parse(await answered(own("tables"), how, byId("message").textContent));
    state.read = records.map(commandOf);
    const rows = state.read.map((command, at) => [String(at + 1), command.what === "submit" ? "enter" : command.what, command.order, ...orderCells(command)]);
    byId("read-table").replaceChildren(table("What the table says; nothing is entered yet", [["", "n"], ["does"], ["order"], ...ORDER_HEADS], rows));
    byId("enter-all").textContent = `Enter ${records.length === 1 ? "this row" : `these ${records.length} rows`}`;
    byId("read").hidden = false;
    say(["The table was read. Look at it, then enter it.", ...notes].join("\n"));
    byId("enter-all").focus();
  } catch (fault) {
    if (fault.fault === "Left") return;
    const isToBeChosen = fault.status === 400 || fault.fault === "Changed"; // it is changed then, and a browser doesn't read it
    say(`Nothing of ${file.name} was entered.${isToBeChosen ? " Correct it, and choose it again." : ""}`, "wrong", "file");
    if (isToBeChosen) byId("upload-form").reset();
    mark(byId("file"), fault.message);
    byId("file").focus();
  } finally {
    byId("read-file").disabled = false;
  }
}

async function enterAll() {
  const { read, visit } = state;
  state.read = []; // the day may close in the meantime
  const isDone = await enter(read);
  if (visit !== state.visit) return;
  if (isDone === null && isOpen()) {
    state.read = read; // it can be entered again
    byId("enter-all").focus();
    return;
  }
  drop();
  if (!isDone) byId("commands-list").open = true;
  byId("commands-title").focus();
}

function drop() {
  state.read = [];
  byId("read").hidden = true;
  byId("read-table").replaceChildren();
  byId("upload-form").reset();
  mark(byId("file"), "");
}

// --- files

function save(text, type, name) {
  const link = element("a", { href: URL.createObjectURL(new Blob([text], { type })), download: name });
  link.click();
  setTimeout(() => URL.revokeObjectURL(link.href), 1000);
}

async function download() {
  try {
    save(await ask(own("receipts")), "application/jsonl", `${who()}-${state.day}.jsonl`);
  } catch (fault) {
    sayFault(fault);
  }
}

async function closeNow() {
  if (!(await sure("Close the day now? Nobody can enter orders afterwards, and it can't be undone.", "Close the day"))) return;
  await ask(`/days/${state.day}/close`, { method: "POST" }).catch(sayFault);
  await look();
  if (byId("results").hidden) byId("orders-title").focus();
}

// Shows the days, again and again until the office answers.
async function begin() {
  try {
    await days();
    say("");
  } catch (fault) {
    sayFault(fault);
    setTimeout(begin, LOOK);
    return;
  }
  show();
  await look();
}

// --- the page

byId("price-help").textContent = `${limitRule.ends}, with a point or a comma`;
for (const id of ["volume-help", "grid-help"]) byId(id).textContent = volumeRule.ends;
byId("sign-in-form").addEventListener("submit", (event) => { event.preventDefault(); signIn(byId("token").value); });
byId("sign-out").addEventListener("click", async () => { if (await leaves("Sign out without it?", "Sign out")) signOut(); });
byId("receipts").addEventListener("click", download);
byId("results-table").addEventListener("click", () => save(csv(state.results), "text/csv", `${who()}-${state.day}.csv`));
byId("days").addEventListener("change", changeDay);
byId("close-now").addEventListener("click", closeNow);
for (const id of ["yes", "no"]) byId(id).addEventListener("click", () => byId("sure").close(id));
byId("kinds").addEventListener("change", showKind);
byId("keep").addEventListener("click", () => { change(null); byId("orders-title").focus(); });
for (const id of ["name", "group"]) byId(id).addEventListener("input", () => { byId(id).value = byId(id).value.toUpperCase(); });
byId("order-form").addEventListener("input", ({ target, currentTarget }) => {
  if (target.hasAttribute("aria-invalid")) mark(target, "");
  if (state.about === "fields" && !currentTarget.querySelector("[aria-invalid]")) say("");
});
byId("fill").addEventListener("click", fill);
byId("fill-volume").addEventListener("keydown", (event) => {
  if (event.key !== "Enter") return;
  event.preventDefault(); // it doesn't enter the order
  fill();
});
byId("grid").addEventListener("keydown", (event) => {
  if (event.key !== "Enter") return;
  event.preventDefault(); // it goes to the next period, as in a spreadsheet, and doesn't enter half an order
  (cells()[cells().indexOf(event.target) + 1] ?? byId("enter")).focus();
});
byId("grid").addEventListener("paste", paste);
byId("clear").addEventListener("click", () => {
  say("");
  for (const input of cells()) {
    input.value = "";
    mark(input, "");
  }
});
byId("order-form").addEventListener("submit", enterOrder);
byId("template").addEventListener("click", () => save(template(), "text/csv", "orders.csv"));
byId("upload-form").addEventListener("submit", upload);
byId("file").addEventListener("change", () => {
  mark(byId("file"), "");
  if (state.about === "file") say("");
});
byId("enter-all").addEventListener("click", enterAll);
byId("drop").addEventListener("click", () => { drop(); say(""); byId("file").focus(); });

addEventListener("beforeunload", (event) => {
  if (state.token && state.known && toLose().length) event.preventDefault(); // the browser asks
});
setInterval(look, LOOK);
setInterval(tick, 500);
begin();
