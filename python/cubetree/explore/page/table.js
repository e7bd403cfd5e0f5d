// The table of an answer. Its numbers are the texts that came, with spaces between thousands.
"use strict";
import { $, fill, make } from "./page.js";
import * as numbers from "./numbers.js";

const MOST = 1000; // rows
let sorted = null; // the place of a column, and whether its greatest values come first

/** Forgets the order, for another question. */
export function unsort() { sorted = null; }

/** Draws the rows, in the order that was chosen by a click on a head. */
export function drawTable(answer) {
  const isRight = (at) => answer.kinds[at] === "number";
  const rows = inOrder(answer).slice(0, MOST).map((row) => row.map((text, at) => (
    at < answer.groups ? text || "(empty)" : numbers.shown(text))));
  fill($("table"), answer.columns.map((name, at) => head(answer, name, at)), rows, isRight);
  [...$("table").tHead.rows[0].cells].forEach((cell, at) => {
    const way = sorted?.down ? "descending" : "ascending";
    cell.setAttribute("aria-sort", sorted?.at === at ? way : "none");
  });
  const left = answer.count - rows.length;
  if (left > 0) {
    const text = `${numbers.counted(left, "more row")}: csv has all`;
    const cell = make("td", { colSpan: answer.columns.length, textContent: text });
    $("table").tBodies[0].append(make("tr", {}, cell));
  }
}

/** The rows in the order that is wanted. */
function inOrder(answer) {
  if (!sorted || sorted.at >= answer.columns.length) return answer.rows;
  const { at, down } = sorted;
  const byText = (a, b) => (a < b ? -1 : Number(a > b));
  const order = answer.kinds[at] === "number" ? numbers.compare : byText;
  return [...answer.rows].sort((a, b) => (down ? -1 : 1) * order(a[at], b[at]));
}

/** A head that sorts: the greatest values first, then the least, then as the answer came. */
function head(answer, name, at) {
  const mark = sorted?.at === at ? (sorted.down ? " \u25be" : " \u25b4") : "";
  const button = make("button", { type: "button", textContent: name + mark, title: "sort" });
  button.dataset.key = `sort ${at}`;
  button.addEventListener("click", () => {
    if (sorted?.at !== at) sorted = { at, down: true };
    else sorted = sorted.down ? { at, down: false } : null;
    drawTable(answer);
  });
  return button;
}
