// The page: it asks for the state of the folder again and again, and for an answer when another
// question is chosen or a batch has come.
"use strict";
import { $, encoded, fill, get, make } from "./page.js";
import { drawChoices } from "./choices.js";
import { drawFilters, makeFilters } from "./filters.js";
import * as numbers from "./numbers.js";
import * as picture from "./picture.js";
import * as question from "./question.js";
import { drawTable, unsort } from "./table.js";

const LOOK = 1000; // milliseconds between two looks at the folder
const LOOK_BUSY = 500; // the same while a writer is at work
const LOOK_ENDED = 5000; // the same after the server has ended
const AGAIN = 200; // milliseconds until a busy folder is asked again
const NO_CHART = "There is no chart, since Chart.js is missing:"
  + " install libjs-chart.js (sudo apt install libjs-chart.js) and load the page again.";
const { wanted } = question;
let state = null;
let answer = null;
let asking = new AbortController();
let drawings = 0;
let waits = false; // whether the answer waits for another run

// ---- the answer

/** Asks the question that is wanted, in place of one that is under way. */
async function ask() {
  asking.abort();
  asking = new AbortController();
  const { signal } = asking;
  choices();
  question.writeAddress();
  const text = question.slice(state);
  const found = await get(`answer.json?slice=${encoded(text)}`, signal);
  if (signal.aborted) return;
  waits = Boolean(found.busy);
  working(state.work);
  if (found.busy) {
    setTimeout(() => { if (!signal.aborted) ask(); }, AGAIN);
    return;
  }
  say("fault", found.fault);
  if (found.fault) return;
  answer = { ...found, text };
  show();
  const { pages, of } = await get(`pages.json?slice=${encoded(text)}`, signal);
  if (signal.aborted) return;
  Object.assign(answer, { pages, of });
  tell();
}

/** Shows the answer. */
function show() {
  const { text, rows, groups } = answer;
  $("csv").href = `answer.csv?slice=${encoded(text)}`;
  $("command").textContent = answer.command ?? "no command line can have a null byte";
  $("copy").disabled = !answer.command;
  drawTable(answer);
  const total = (name, at) => make("div", {},
    make("b", { textContent: rows.length ? numbers.shown(rows[0][at]) || "none" : "none" }),
    make("span", { textContent: name }));
  $("totals").replaceChildren(...(groups ? [] : answer.columns.map(total)));
  drawPicture();
  tell();
  document.body.dataset.drawn = String(++drawings);
}

/** Draws the chart, or says why there is none. */
function drawPicture() {
  picture.clear();
  const isCut = answer.count > answer.rows.length;
  const isPart = isCut && (answer.groups > 1 || answer.kinds[0] !== "text");
  const isShown = answer.groups > 0 && answer.rows.length > 0 && !isPart && picture.hasCharts();
  $("frame").hidden = !isShown;
  say("nochart", picture.hasCharts()
    ? isPart && `${numbers.counted(answer.count, "row")} are too many for a chart: add a filter.`
    : answer.groups > 0 && NO_CHART);
  if (!isShown) return;
  const planned = picture.plan(answer);
  picture.draw(planned);
  $("told").dataset.chart = chartTold(planned);
}

/** What the chart leaves out, in words. */
function chartTold({ series, names, kind }) {
  const parts = [];
  const columns = answer.columns.slice(answer.groups);
  if (answer.groups > 1 && columns.length > 1) parts.push(`the chart has ${names[0]} alone`);
  const last = series[series.length - 1];
  if (/^\d+ others$/.test(last.name) && last.texts) parts.push(`the least ${last.name} are joined`);
  const isMean = columns.some((name) => !question.addsUp(name));
  if (kind === "stack" && isMean) parts.push("a stack of values that do not add up says little");
  return parts.map((part) => `; ${part}`).join("");
}

/** Says how many rows there are, which view answered, and how many pages it read. */
function tell() {
  const { pages, of } = answer;
  const view = answer.view.join(", ") || "of no attribute";
  const read = of === undefined ? ""
    : `: ${numbers.shown(String(pages))} of ${numbers.counted(of, "page")}`;
  const rows = numbers.counted(answer.count, "row");
  $("told").textContent = `${rows} in ${answer.milliseconds} ms, from the view ${view}${read}`
    + ($("frame").hidden ? "" : $("told").dataset.chart ?? "");
}

/** Draws the choices and filters by what is wanted. */
function choices() {
  drawChoices(state, changed, redrawn);
  drawFilters(state);
}

/** Asks another question. */
function changed() {
  unsort();
  ask();
}

/** Draws another chart of the same answer. */
function redrawn() {
  choices();
  question.writeAddress();
  if (answer) show();
}

// ---- the folder

/** Shows a text, or hides its place if there is none. */
function say(id, text) {
  $(id).hidden = !text;
  $(id).textContent = text || "";
}

/** Looks at the folder, now and again and again. */
async function look() {
  const found = await get("state.json");
  say("notice", noticeOf(found));
  const isReady = found.phase === "ready";
  $("main").hidden = $("state").hidden = !isReady && !answer;
  if (found.folder) named(found);
  working(found.work);
  if (isReady) arrived(found);
  setTimeout(look, found.ended ? LOOK_ENDED : found.work ? LOOK_BUSY : LOOK);
}

/** What stands above all if there is nothing to ask. */
function noticeOf(found) {
  if (found.fault) return found.fault;
  if (found.phase === "gone") return `The folder ${found.folder} is gone.`;
  if (found.phase !== "empty") return "";
  return `No schema is declared in ${found.folder} yet. Load a csv file:\n\n`
    + `    cube load FILE.csv --folder ${found.folder}`;
}

/** Takes a state of the folder, and asks again if it is another one. */
function arrived(found) {
  const before = state;
  state = found;
  drawState();
  const schema = (each) => JSON.stringify([each.attributes, each.measures]);
  if (!before) begin();
  else if (schema(before) !== schema(found)) restart();
  else if (before.generation !== found.generation || before.changed !== found.changed) ask();
}

/** Asks the first question: that of the address, or one that suits the folder. */
function begin() {
  if (!question.readAddress()) question.begin(state);
  restart();
}

/** Begins with a schema. */
function restart() {
  question.fit(state);
  makeFilters(state, changed);
  changed();
}

/** Names the folder. */
function named({ folder }) {
  $("folder").textContent = folder;
  document.title = `${folder.split("/").pop()} \u2013 cubetree`;
}

/** Says what a writer does, and how far it is. */
function working(work) {
  $("live").className = work || waits ? "busy" : "";
  $("part").hidden = typeof work?.part !== "number";
  if (work?.part) $("part").value = work.part;
  const tool = work?.tool ?? "another run";
  const doing = work?.batch ? `${tool}: a batch is being taken in` : `${tool} is at work here`;
  const text = (work || waits ? doing : "no load under way") + (waits ? "; the answer waits" : "");
  if ($("work").textContent !== text) $("work").textContent = text;
  const parts = [];
  if (work?.rows) parts.push(numbers.counted(work.rows, "row"));
  if (work?.batches) parts.push(`${work.batches} batch${work.batches === 1 ? "" : "es"}`);
  $("far").textContent = parts.join(", ");
}

/** Shows the state of the folder. */
function drawState() {
  const number = state.number ? `the last numbered batch is ${state.number}` : "no numbered batch";
  const when = new Date(1000 * state.changed).toLocaleString();
  $("facts").textContent = `${numbers.counted(state.facts, "fact")}; ${number};`
    + ` last change ${when}; format ${state.format}`;
  const row = (view) => [
    view.attributes.join(", ") || "(of no attribute)",
    numbers.shown(String(view.points)),
    numbers.bytes(view.bytes),
  ];
  fill($("views"), ["view", "points", "leaves"], state.views.map(row), (at) => at > 0);
  const sizes = Object.entries(state.sizes).map(([name, size]) => `${name} ${numbers.bytes(size)}`);
  $("sizes").textContent = `Files: ${sizes.join(", ")}`;
}

// ---- what the user does

/** Copies the command. */
async function copy() {
  let said = "Copied";
  try {
    await navigator.clipboard.writeText(answer.command);
  } catch {
    getSelection().selectAllChildren($("command"));
    said = "Press Ctrl-C";
  }
  $("copy").textContent = said;
  setTimeout(() => { $("copy").textContent = "Copy"; }, 1500);
}

$("order").addEventListener("change", () => { wanted.order = $("order").value; redrawn(); });
$("most").addEventListener("change", () => {
  wanted.most = Math.min(Math.max(Math.floor(Number($("most").value)) || 30, 1), 20_000);
  redrawn();
});
$("copy").addEventListener("click", copy);
matchMedia("(prefers-color-scheme: dark)").addEventListener("change", () => answer && show());
look();
