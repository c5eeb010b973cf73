"use strict";
// Sorts and filters the table of items. The rows stand in the page already, so it can be read without this script.
const table = document.getElementById("items");
const bodies = Array.from(table.tBodies);
const sizes = bodies.map((body) => body.rows.length);
const rows = bodies.flatMap((body) => Array.from(body.rows));
const headings = Array.from(table.tHead.rows[0].cells);
const columns = headings.map((heading) => heading.dataset.name);
const words = document.getElementById("words");
const verdict = document.getElementById("verdict");
const warning = document.getElementById("warning");
const collator = new Intl.Collator("en", { numeric: true });

function textOf(row, name) {
  return row.cells[columns.indexOf(name)].textContent;
}

// Returns what orders two texts of a column. An empty text comes last in both directions.
function order(isText, isDescending) {
  const compare = isText ? collator.compare : (one, other) => Number(one) - Number(other);
  return (one, other) => {
    if (one === "" || other === "") return (one === "") - (other === "");
    return isDescending ? compare(other, one) : compare(one, other);
  };
}

let ordered = rows;

// Fills the groups with the rows in their order, those that are shown first. A group without any has no height.
function fill() {
  const filled = [...ordered.filter((row) => !row.hidden), ...ordered.filter((row) => row.hidden)];
  bodies.forEach((body, place) => {
    body.replaceChildren(...filled.splice(0, sizes[place]));
    body.hidden = body.rows[0].hidden;
  });
}

function sortBy(heading) {
  const isDescending = heading.getAttribute("aria-sort") === "ascending";
  const place = headings.indexOf(heading);
  const compare = order(heading.classList.contains("left"), isDescending);
  const keyed = rows.map((row) => [row.cells[place].textContent, row]);
  keyed.sort((one, other) => compare(one[0], other[0]));
  ordered = keyed.map(([, row]) => row);
  fill();
  headings.forEach((it) => it.removeAttribute("aria-sort"));
  heading.setAttribute("aria-sort", isDescending ? "descending" : "ascending");
}

const searched = rows.map((row) =>
  ["item", "description", "class", "warnings"].map((name) => textOf(row, name)).join("\n").toLowerCase());

// Returns whether a row has what the list of warnings asks for: all, with, without, or one code.
function hasWarning(row, asked) {
  if (asked.startsWith("is ")) return row.dataset.codes.split("; ").includes(asked.slice(3));
  return asked === "" || (asked === "with") === (textOf(row, "warnings") !== "");
}

function filter() {
  const wanted = words.value.toLowerCase();
  let count = 0;
  rows.forEach((row, place) => {
    const isShown = searched[place].includes(wanted)
      && (verdict.value === "" || verdict.value === textOf(row, "verdict"))
      && hasWarning(row, warning.value);
    row.hidden = !isShown;
    count += isShown;
  });
  fill();
  document.getElementById("count").textContent = `${count.toLocaleString("en")} of ${rows.length.toLocaleString("en")}`;
}

headings.forEach((heading) => heading.querySelector("button").addEventListener("click", () => sortBy(heading)));
words.addEventListener("input", filter);
[verdict, warning].forEach((it) => it.addEventListener("change", filter));
document.getElementById("filters").hidden = false;
filter();
