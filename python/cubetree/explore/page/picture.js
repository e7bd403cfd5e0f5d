// The chart of an answer: its keys along the axis, a series for each column or each further group.
"use strict";
import { $ } from "./page.js";
import * as numbers from "./numbers.js";
import { addsUp, isTime, wanted } from "./question.js";

const COLOURS = 8; // as many series as have a colour
const MOST_FILLED = 1000; // keys of an axis of time with those that no row has
const SMALL = 10; // a series that is so many times smaller has an axis of its own
let chart = null;

/** Whether Chart.js is there, in a form that this page knows. */
export const hasCharts = () => parseInt(globalThis.Chart?.version ?? "0", 10) >= 3;

// ---- what is drawn

/** What a chart has: its keys in order, its series, their kind, and what to say of it. */
export function plan(answer) {
  const axis = axisOf(answer);
  const kind = answer.kinds[axis];
  const isOrdered = kind !== "text";
  const series = joined(seriesOf(answer, axis));
  const all = keysOf(answer, axis, series);
  const keys = isOrdered ? filled(all, kind) : all.slice(0, wanted.most);
  const isLine = isTime(kind) ? keys.length > 1 : isOrdered && keys.length > 12;
  const values = answer.columns.slice(answer.groups);
  const names = answer.groups > 1 ? values.slice(0, 1) : values;
  return {
    keys,
    series,
    names,
    left: isOrdered ? 0 : all.length - keys.length,
    axis: answer.columns[axis],
    kind: wanted.kind || (isLine ? "line" : "bar"),
  };
}

/** The place of the group along the axis: the first one of time, or else the first. */
function axisOf(answer) {
  const place = answer.kinds.slice(0, answer.groups).findIndex(isTime);
  return place < 0 ? 0 : place;
}

/** The series by name: a column each, or the first column for each value of the other groups. */
function seriesOf(answer, axis) {
  const found = new Map();
  const put = (name, column, key, text) => {
    if (!found.has(name)) found.set(name, { name, column, texts: new Map() });
    if (numbers.isNumber(text)) found.get(name).texts.set(key, text);
  };
  const columns = answer.columns.slice(answer.groups);
  for (const row of answer.rows) {
    const others = row.slice(0, answer.groups).filter((_, at) => at !== axis);
    const name = others.map((text) => text || "(empty)").join(" \u00b7 ");
    if (others.length) put(name, columns[0], row[axis], row[answer.groups]);
    else columns.forEach((column, at) => put(column, column, row[axis], row[1 + at]));
  }
  return [...found.values()];
}

/** How much a series or a key weighs, to find the great ones. */
function weight(texts, column) {
  const sizes = texts.map((text) => Math.abs(Number(text)));
  return sizes.reduce((a, b) => (addsUp(column) ? a + b : Math.max(a, b)), 0);
}

/** The series that have colours, the great ones first. The others are one series if they add up,
 * so that a stack has its whole height; otherwise they are left out. */
function joined(series) {
  if (series.length <= COLOURS) return series;
  const size = new Map(series.map((each) => [each, weight([...each.texts.values()], each.column)]));
  const ranked = [...series].sort((a, b) => size.get(b) - size.get(a));
  if (!addsUp(series[0].column)) return ranked.slice(0, COLOURS);
  const rest = ranked.splice(COLOURS - 1);
  const texts = new Map();
  for (const each of rest) {
    for (const [key, text] of each.texts) texts.set(key, numbers.sum(texts.get(key) ?? "0", text));
  }
  return [...ranked, { name: `${rest.length} others`, column: series[0].column, texts }];
}

/** The keys: those of time and numbers in their order, others as it is wanted. */
function keysOf(answer, axis, series) {
  const keys = [...new Set(answer.rows.map((row) => row[axis]))];
  const kind = answer.kinds[axis];
  if (kind === "number") return keys.sort(numbers.compare);
  if (kind !== "text" || wanted.order === "group") return keys.sort();
  const { column } = series[0];
  const own = answer.groups > 1 ? series : series.slice(0, 1);
  const textsOf = (key) => own.map(({ texts }) => texts.get(key)).filter((text) => text);
  const isSum = addsUp(column);
  const size = (key) => (isSum ? textsOf(key).reduce((a, b) => a + Number(b), 0)
    : Math.max(...textsOf(key).map(Number)));
  const sizes = new Map(keys.map((key) => [key, size(key)]));
  return keys.sort((a, b) => sizes.get(b) - sizes.get(a));
}

/** The keys of an axis of time with those between them that no row has, so that equal times are
 * equally wide. */
function filled(keys, kind) {
  const forms = { day: /^\d{4}-\d\d-\d\d$/, month: /^\d{4}-\d\d$/, year: /^\d{4}$/ };
  if (!forms[kind] || keys.length < 2 || !keys.every((key) => forms[kind].test(key))) return keys;
  const made = [];
  const last = keys[keys.length - 1];
  for (let key = keys[0]; key < last && made.length < MOST_FILLED; key = next(key)) made.push(key);
  return made.length < MOST_FILLED ? [...made, last] : keys;
}

/** The year, the month or the day after one. */
function next(key) {
  const parts = key.split("-").map(Number);
  parts[parts.length - 1] += 1;
  const [year, month = 1, day = 1] = parts;
  const after = new Date(0);
  after.setUTCFullYear(year, month - 1, day);
  return after.toISOString().slice(0, key.length);
}

// ---- drawing

/** Takes the chart away. */
export function clear() {
  if (chart) chart.destroy();
  chart = null;
}

/** Draws a chart. */
export function draw(planned) {
  clear();
  const style = getComputedStyle(document.documentElement);
  const colour = (name) => style.getPropertyValue(name).trim();
  const small = smallOf(planned);
  chart = new globalThis.Chart($("chart"), {
    type: planned.kind === "line" ? "line" : "bar",
    data: {
      labels: planned.keys.map((key) => key || "(empty)"),
      datasets: planned.series.map((each, at) => (
        dataset(planned, each, colour(`--s${at + 1}`), small))),
    },
    options: options(planned, small, colour),
  });
  const many = numbers.counted(planned.keys.length, "group");
  $("chart").setAttribute("aria-label", `${planned.names.join(", ")} by ${planned.axis}, ${many}`);
}

/** The series that would be flat beside the greatest one, which have an axis on the right. */
function smallOf({ series, kind, names }) {
  const sizes = ({ texts }) => [...texts.values()].map((text) => Math.abs(Number(text)));
  const top = (each) => sizes(each).reduce((a, b) => Math.max(a, b), 0);
  const greatest = Math.max(...series.map(top));
  const isSmall = (each) => top(each) < greatest / SMALL;
  return kind === "stack" || names.length < 2 ? [] : series.filter(isSmall);
}

/** A series as Chart.js has it. */
function dataset({ keys, kind }, each, colour, small) {
  return {
    label: each.name,
    yAxisID: small.includes(each) ? "right" : "y",
    data: keys.map((key) => (each.texts.has(key) ? Number(each.texts.get(key)) : null)),
    texts: keys.map((key) => each.texts.get(key)),
    backgroundColor: colour,
    borderColor: colour,
    borderWidth: kind === "line" ? 2 : 0,
    pointRadius: keys.length > 60 ? 0 : 2.5,
    maxBarThickness: 60,
    spanGaps: true,
  };
}

/** How Chart.js draws it. */
function options(planned, small, colour) {
  const [ink, line] = [colour("--ink"), colour("--line")];
  const isStack = planned.kind === "stack";
  const names = (isRight) => planned.names.length < 2 ? planned.names.filter(() => !isRight)
    : planned.series.filter((each) => small.includes(each) === isRight).map(({ name }) => name);
  const count = planned.keys.length;
  const left = planned.left ? `: the first ${count} of ${count + planned.left}` : "";
  const scale = (isRight) => ({
    stacked: isStack,
    position: isRight ? "right" : "left",
    beginAtZero: planned.kind !== "line",
    ticks: { color: ink },
    grid: isRight ? { display: false } : { color: line, drawBorder: false },
    title: { display: true, text: names(isRight).join(", "), color: ink },
  });
  return {
    animation: false,
    responsive: true,
    maintainAspectRatio: false,
    interaction: { mode: "index", intersect: false },
    scales: {
      x: {
        stacked: isStack,
        ticks: { color: ink, maxRotation: 60, autoSkipPadding: 2, callback: shortened },
        title: { display: true, text: planned.axis + left, color: ink },
        grid: { display: false },
      },
      y: scale(false),
      ...(small.length ? { right: scale(true) } : {}),
    },
    plugins: {
      legend: { display: planned.series.length > 1, labels: { color: ink, boxWidth: 14 } },
      tooltip: { callbacks: { label: exact } },
    },
  };
}

/** A label of the axis, which may be long. */
function shortened(value) {
  const text = this.getLabelForValue(value);
  return text.length > 22 ? `${text.slice(0, 21)}\u2026` : text;
}

/** What a tooltip says: the text that came, and not the rounded number. */
function exact({ dataset: { label, texts }, dataIndex }) {
  return `${label}: ${numbers.shown(texts[dataIndex] ?? "")}`;
}
