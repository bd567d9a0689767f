// --- results

const OUTCOMES = { "in full": "executed in full", "in part": "executed in part", not: "not executed" };
const hoursOf = () => (state.known.periods > 25 ? 0.25 : 1);
const orderOf = (row) => state.orders.find(({ order }) => order === row.order);
const signOf = ({ side }) => (side === "sell" ? 1 : -1);

// The average price of what was executed; null if nothing was.
const average = (row) => (row.executed_mwh ? (signOf(orderOf(row)) * row.amount_eur) / row.executed_mwh : null);
const offered = ({ volumes }) => (volumes.reduce((sum, [, volume]) => sum + volume, 0) * hoursOf()) / 10;

function resultCells(row) {
  const order = orderOf(row);
  const [kind, side, limit] = orderCells(order);
  const energies = [offered(order), row.executed_mwh].map((value) => shown(value, 1, 3));
  const price = average(row) === null ? "" : shown(average(row), 2);
  return [row.order, kind, side, periodsOf(order.volumes), limit, ...energies, price, signed(row.amount_eur, 2), OUTCOMES[row.outcome] ?? row.outcome, row.why ?? ""];
}

// The sum of amounts, each a multiple of a quarter of a thousandth of an EUR.
const summed = (amounts) => amounts.reduce((sum, amount) => sum + Math.round(4000 * amount), 0) / 4000;

function showTotals(rows) {
  const amounts = rows.map((row) => row.amount_eur);
  const received = summed(amounts.filter((amount) => amount > 0));
  const paid = summed(amounts.filter((amount) => amount < 0));
  const pairs = [["you receive, EUR", shown(received, 2)], ["you pay, EUR", shown(-paid, 2)], ["net, EUR", signed(summed(amounts), 2)]];
  figures(pairs, "totals");
}

// What was bought and sold by period, in tenths of a MW: pairs of a period and both.
function position(rows) {
  const found = new Map();
  for (const row of rows.filter(({ executed_mwh: executed }) => executed)) {
    const { kind, side, volumes } = orderOf(row);
    const executed = kind === "hour" ? [[volumes[0][0], Math.round((10 * row.executed_mwh) / hoursOf())]] : volumes;
    for (const [period, volume] of executed) {
      const both = found.get(period) ?? { buy: 0, sell: 0 };
      both[side] += volume;
      found.set(period, both);
    }
  }
  return [...found].sort(([one], [other]) => one - other);
}

function showPosition(rows) {
  const heads = [["period"], ["bought, MW", "n"], ["sold, MW", "n"], ["net, MW", "n"]];
  const cells = position(rows).map(([period, { buy, sell }]) => [periodWords(period), grouped(buy, 1), grouped(sell, 1), signed((buy - sell) / 10, 1)]);
  byId("position").replaceChildren(...(cells.length ? [table("What you bought and sold in each period; net is bought less sold", heads, cells, false)] : []));
}

function showPrices(text) {
  const prices = text.split("\n").map((line) => line.split(",")).filter(([word]) => word === "period");
  const cells = prices.map(([, number, price, volume]) => {
    const words = grouped(price, 2);
    return [periodWords(number), Number(volume) ? words : element("span", { className: "nominal", textContent: `${words} (nominal)` }), grouped(volume, 1)];
  });
  const heads = [["period"], ["price, EUR/MWh", "n"], ["traded by all, MW", "n"]];
  byId("prices").replaceChildren(table(`The price and the traded volume of each period; times of ${state.known.zone}`, heads, cells, false));
}

async function showResults() {
  const [statement, text] = await Promise.all([json(own("statement")), ask(`/days/${state.day}/prices`)]);
  const places = new Map(state.orders.map(({ order }, at) => [order, at])); // in the book
  const rows = statement.rows.filter(({ outcome }) => outcome).sort((one, other) => places.get(one.order) - places.get(other.order));
  state.results = rows;
  const heads = [["order"], ["kind"], ["side"], ["periods", "list"], ["limit, EUR/MWh", "n"], ["offered, MWh", "n"], ["executed, MWh", "n"], ["average price, EUR/MWh", "n"]];
  heads.push(["you receive (+) or pay (\u2212), EUR", "n"], ["outcome", "outcome"], ["reason", "why"]);
  const made = rows.length ? table("Your orders that were in the book at the close", heads, rows.map(resultCells)) : "You had no order in the book at the close.";
  byId("statement").replaceChildren(made);
  showTotals(rows);
  showPosition(rows);
  showPrices(text);
  byId("results-table").hidden = !rows.length;
  byId("results").hidden = false;
}

// Says that the results are out; to those who have waited for them, by their heading.
function tellResults() {
  say([element("a", { href: "#results", textContent: "The results are out" }), "."]);
  if (!state.awaits) return;
  state.awaits = false;
  byId("results-title").focus({ preventScroll: true });
  byId("results-title").scrollIntoView();
}

const COLUMNS = ["order", "kind", "side", "price_eur_mwh", "periods", "volume_mw", "parent", "group", "outcome", "executed_mwh", "amount_eur", "code", "why"];

// A field of a table: what a spreadsheet may take for a formula is escaped.
function field(value) {
  const words = String(value ?? "").replace(/^(?=[-+=@])/, typeof value === "number" ? "" : "'");
  return /[",\n]/.test(words) ? `"${words.replaceAll('"', '""')}"` : words;
}

// The rows of results as a table, with the columns of those that dam-table prints.
function csv(rows) {
  const lines = rows.map((row) => {
    const { kind, side, parent, group } = orderOf(row);
    const lists = { periods: row.periods.join(";"), volume_mw: row.volume_mw.join(";") };
    return COLUMNS.map((name) => field({ ...row, kind, side, parent, group, ...lists }[name]));
  });
  return [COLUMNS, ...lines].map((cells) => `${cells.join(",")}\n`).join("");
}

