"use strict";
// Tables can be sorted by a column and searched. Without scripts they stay as they are.
const MANY = 8;

function value(cell) {
  const words = cell.textContent.trim();
  const number = Number(words.replaceAll(",", ""));
  return words === "" || Number.isNaN(number) ? words : number;
}

function compare(one, other) {
  const numbers = [one, other].map((value) => typeof value === "number");
  if (numbers[0] !== numbers[1]) return numbers[0] ? -1 : 1;
  return numbers[0] ? one - other : one.localeCompare(other);
}

function sort(table, head, at) {
  const orders = { none: "ascending", ascending: "descending", descending: "none" };
  const order = orders[head.getAttribute("aria-sort") ?? "none"];
  for (const other of table.tHead.rows[0].cells) other.removeAttribute("aria-sort");
  const rows = [...table.begin];
  if (order !== "none") {
    head.setAttribute("aria-sort", order);
    const sign = order === "ascending" ? 1 : -1;
    rows.sort((one, other) => sign * compare(value(one.cells[at]), value(other.cells[at])));
  }
  table.tBodies[0].append(...rows);
}

function makeSortable(table) {
  table.begin = [...table.tBodies[0].rows];
  [...table.tHead.rows[0].cells].forEach((head, at) => {
    const button = document.createElement("button");
    button.append(...head.childNodes);
    button.addEventListener("click", () => sort(table, head, at));
    head.append(button);
  });
}

function makeSearchable(table) {
  const label = document.createElement("label");
  const input = document.createElement("input");
  const count = document.createElement("output");
  label.className = "search";
  input.type = "search";
  input.placeholder = "search";
  input.setAttribute("aria-label", "search this table");
  input.addEventListener("input", () => {
    const words = input.value.toLowerCase().split(/\s+/);
    let shown = 0;
    for (const row of table.begin) {
      const text = row.textContent.toLowerCase();
      row.hidden = !words.every((word) => text.includes(word));
      shown += row.hidden ? 0 : 1;
    }
    count.textContent = input.value ? `${shown} of ${table.begin.length}` : "";
  });
  label.append(input, count);
  table.parentElement.before(label);
}

for (const table of document.querySelectorAll("table")) {
  makeSortable(table);
  if (table.begin.length > MANY) makeSearchable(table);
}
for (const wide of document.querySelectorAll(".wide")) {
  const look = () => wide.classList.toggle("more", wide.scrollWidth > wide.clientWidth + 1);
  new ResizeObserver(look).observe(wide);
  look();
}
