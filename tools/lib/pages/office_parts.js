// --- elements

const byId = (id) => document.getElementById(id);

function element(name, properties = {}, ...children) {
  const made = Object.assign(document.createElement(name), properties);
  made.append(...children);
  return made;
}

function options(select, pairs) {
  const chosen = select.value;
  select.replaceChildren(...pairs.map(([value, words]) => element("option", { value, textContent: words })));
  if (pairs.some(([value]) => String(value) === chosen)) select.value = chosen;
}

function row(heads, cells) {
  return element("tr", { role: "row" }, ...heads.map(([words, of], at) => {
    const made = element(at ? "td" : "th", { role: at ? "cell" : "rowheader", className: of ?? "" }, cells[at] ?? "");
    if (!at) made.scope = "row";
    made.dataset.head = words;
    return made;
  }));
}

// A table as in the report: heads are pairs of words and a class, cells texts or elements. On a narrow screen a stacked one has a line for
// each cell; the roles keep it a table there.
function table(caption, heads, rows, isStacked = true) {
  const head = element("tr", { role: "row" }, ...heads.map(([words, of]) => element("th", { role: "columnheader", scope: "col", className: of ?? "", textContent: words })));
  const body = rows.map((cells) => row(heads, cells));
  const parts = [element("caption", {}, element("span", { textContent: caption })), element("thead", { role: "rowgroup" }, head), element("tbody", { role: "rowgroup" }, ...body)];
  const wide = element("div", { className: isStacked ? "wide stacked" : "wide" }, element("table", { role: "table" }, ...parts));
  sizes.observe(wide);
  return wide;
}

// The keyboard stops at a table only if it can be scrolled.
const sizes = new ResizeObserver((entries) => {
  for (const { target: wide } of entries) {
    const isScrolled = wide.scrollWidth > wide.clientWidth || wide.scrollHeight > wide.clientHeight;
    const marks = { tabindex: "0", role: "region", "aria-label": wide.querySelector("caption").textContent };
    for (const name of Object.keys(marks)) {
      if (isScrolled) wide.setAttribute(name, marks[name]);
      else wide.removeAttribute(name);
    }
  }
});

function figures(pairs, place = "figures") {
  byId(place).replaceChildren(...pairs.map(([words, value, id]) => element("div", {}, element("dt", { textContent: words }), element("dd", { textContent: value, id: id ?? "" }))));
}

// --- numbers: cents per MWh and tenths of a MW are whole, and never go through a fraction

const fixed = (value, digits) => (value / 10 ** digits).toFixed(digits);
const shown = (value, digits, most = digits) => (Number(value) || 0).toLocaleString("en", { minimumFractionDigits: digits, maximumFractionDigits: most });
const grouped = (value, digits) => shown(value / 10 ** digits, digits);
const sentence = (words) => words.charAt(0).toUpperCase() + words.slice(1);
const counted = (count, word) => `${count} ${word}${count === 1 ? "" : "s"}`;

// With its sign, as a minus and not as a dash.
function signed(value, digits) {
  const made = (Number(value) || 0).toLocaleString("en", { minimumFractionDigits: digits, maximumFractionDigits: digits, signDisplay: "exceptZero" });
  return made.replace("-", "\u2212");
}

function left(seconds) {
  const whole = Math.ceil(seconds);
  if (whole >= 172_800) return `${Math.floor(whole / 86_400)} days`;
  const parts = [Math.floor(whole / 3600), Math.floor(whole / 60) % 60, whole % 60];
  return parts.map((part) => String(part).padStart(2, "0")).join(":");
}

// --- commands, as the office takes them and as it shows them

const DONE = { submit: "entered", amend: "amended", cancel: "cancelled" };

// The command of a record: `submit,GAS,UNIT-8,hour,sell,6000,8:500,,`.
function commandOf(record) {
  const [what, , order, kind, side, price, volumes, parent, group] = record.split(",");
  if (what === "cancel") return { what, order };
  const changed = { what, order, price: Number(price), volumes: volumes.split(";").map((pair) => pair.split(":").map(Number)) };
  if (what === "amend") return changed;
  return { ...changed, kind, side, ...(kind === "block" ? { parent, group } : {}) };
}

// The runs of periods with the same volume.
function runsOf(volumes) {
  const groups = [];
  for (const [period, volume] of volumes) {
    const last = groups.at(-1);
    if (last && last.volume === volume && last.to === period - 1) last.to = period;
    else groups.push({ from: period, to: period, volume });
  }
  return groups;
}

const runWords = ({ from, to }) => (from === to ? String(from) : `${from}-${to}`);
const runs = (volumes) => runsOf(volumes).map((run) => `${runWords(run)}: ${grouped(run.volume, 1)}`).join("; ");
const periodsOf = (volumes) => runsOf(volumes.map(([period]) => [period, 0])).map(runWords).join("; ");

// The cells of an order or a command, and their heads.
const ORDER_HEADS = [["kind"], ["side"], ["limit, EUR/MWh", "n"], ["volume by period, MW", "given"], ["links"]];

function orderCells({ kind, side, price, volumes, parent, group }) {
  const links = linksOf({ parent, group }).join(", ");
  return [{ hour: "hourly", block: "block" }[kind], side, price === undefined ? "" : grouped(price, 2), volumes ? runs(volumes) : "", links];
}

const linksOf = ({ parent, group }) => [parent && `parent ${parent}`, group && `group ${group}`].filter(Boolean);

// The terms of a command, so that one that wasn't meant is seen at once.
function termsOf({ what, kind, side, price, volumes, parent, group }) {
  if (what === "cancel") return "";
  const [least, most] = [Math.min, Math.max].map((of) => grouped(of(...volumes.map(([, volume]) => volume)), 1));
  const size = least === most ? least : `${least} to ${most}`;
  const where = `${size} MW in period${volumes.length === 1 ? "" : "s"} ${periodsOf(volumes)}`;
  const terms = [kind === "block" && "block", side, where, `at ${grouped(price, 2)} EUR/MWh`, ...linksOf({ parent, group })];
  return `: ${terms.filter(Boolean).join(", ")}`;
}

// Why the book refuses a command, in words to its participant; the other reasons as they are.
const TO_YOU = {
  NameTaken: ({ order }) => `you already have an order ${order}`,
  UnknownOrder: ({ order }) => `you have no order ${order}: it was cancelled, refused, or never entered`,
  UnknownParent: ({ parent }) => `its parent ${parent} isn't in the book`,
  ParentNotBlock: ({ parent }) => `its parent ${parent} is an hourly order`,
  HourlyFull: () => `this auction takes ${RULES.most_hourly.toLocaleString("en")} hourly orders from all participants together, and it has them`,
  BlocksFull: () => `this auction takes ${RULES.most_blocks} blocks from all participants together, and it has them`,
};

function reasonOf(reply, command) {
  const code = reply.split(",")[1];
  return TO_YOU[code]?.(command) ?? REASONS[code] ?? reply;
}

// Of a parent that wasn't cancelled: which of the participant's blocks name it.
function childrenWords(reply, { order }) {
  const children = state.orders.filter(({ parent }) => parent === order).map((child) => child.order);
  return reply === "refused,HasChildren" && children.length ? `: ${children.join(", ")}. Cancel ${children.length === 1 ? "it" : "them"} first` : "";
}

function replyWords(reply, command, later) {
  if (reply !== "done") return element("span", { className: "refused", textContent: `refused: ${reasonOf(reply, command)}` });
  return later ? `done; ${later}` : "done";
}

// Which later command changed the order of each command, by numbers of the participant's own.
function laterWords(commands) {
  const last = new Map();
  const later = new Map();
  for (const { number, record, reply } of commands) {
    const { what, order } = commandOf(record);
    if (reply !== "done") continue;
    if (what !== "submit" && last.has(order)) later.set(last.get(order), `${what === "amend" ? "changed" : "cancelled"} by your command ${number}`);
    last.set(order, number);
  }
  return later;
}

// --- the fields of the form: each has a rule, which gives its value or its fault in words

const HAS_UNIT = /\d\s*[a-z\u20ac]/i;
const HAS_THOUSANDS = /\d[\s.,'\u2019]\d{3}/;

function numberRule(digits, least, greatest, unit) {
  const ends = [least, greatest].map((value) => fixed(value, digits)).join(" to ");
  const range = `from ${ends} ${unit}`;
  const rule = (words) => {
    const [, sign, whole, rest = ""] = /^([-\u2212]?)(\d+)(?:[.,](\d+))?$/.exec(words) ?? [];
    if (whole === undefined && HAS_UNIT.test(words)) return { fault: "Write the number without a unit." };
    if (whole === undefined && HAS_THOUSANDS.test(words)) return { fault: "Write thousands without a separator." };
    if (whole === undefined) return { fault: `Write a number ${range}${words ? `, such as ${fixed(greatest / 8, digits)}` : ""}.` };
    if (rest.length > digits) return { fault: `Write at most ${counted(digits, "digit")} after the point${rest.length === 3 ? ", and thousands without a separator" : ""}.` };
    const value = Number(`${sign && "-"}${whole}${rest.padEnd(digits, "0")}`);
    const side = value < 0 && least > 0 ? ", without a sign: choose the side instead" : "";
    return least <= value && value <= greatest ? { value } : { fault: `It should be ${range}${side}.` };
  };
  return Object.assign(rule, { ends });
}

const limitRule = numberRule(2, RULES.lowest_price, RULES.highest_price, "EUR/MWh");
const volumeRule = numberRule(1, 1, RULES.greatest_volume, "MW");

function nameRule(words) {
  const isName = /^[A-Z0-9-]+$/.test(words);
  if (isName && words.length > RULES.longest_name) return { fault: `It has ${words.length} characters: write at most ${RULES.longest_name}.` };
  return isName ? { value: words } : { fault: `Write ${words ? "" : "a name: "}1 to ${RULES.longest_name} of the characters A to Z, 0 to 9 and -.` };
}

const groupRule = (words) => (words ? nameRule(words) : { value: "" });
const faultOf = (input) => byId(input.getAttribute("aria-describedby").split(" ").at(-1));

function mark(input, words) {
  if (words) input.setAttribute("aria-invalid", "true");
  else input.removeAttribute("aria-invalid");
  faultOf(input).textContent = words;
}

// The values of fields by their rules; null if one is wrong. Each wrong one has its fault next to it, and the first one the focus.
function valuesOf(fields) {
  const found = fields.map(([input, rule, words = ""]) => ({ input, words, ...rule(input.value.trim()) }));
  for (const { input } of found) mark(input, "");
  const wrong = found.filter(({ fault }) => fault);
  for (const { input, words, fault } of wrong.reverse()) mark(input, words + fault); // the first one last: some share a place
  const first = wrong.at(-1)?.input;
  first?.focus();
  first?.scrollIntoView({ block: "nearest" });
  return first ? null : found.map(({ value }) => value);
}
