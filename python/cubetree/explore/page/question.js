// The question: what is wanted, which views cover it, and its text. The address of the page keeps
// it, so a page can be opened again, or in a second window.
"use strict";

export const KINDS = ["", "bar", "line", "stack"];
export const wanted = {
  columns: ["count"],
  by: [],
  where: named({}),
  kind: "",
  order: "value",
  most: 30,
};
const PART = /^(?:month|year)\((.*)\)$/;

/** An object that has these names alone: an attribute may be called `constructor`. */
function named(values) {
  return Object.assign(Object.create(null), values);
}

/** The attribute that a group is a part of. */
export const attributeOf = (group) => (PART.exec(group) || [null, group])[1];

/** Whether rows are grouped by time: by days, months or years. */
export const isTime = (kind) => ["day", "month", "year"].includes(kind);

/** Whether values of this column add up. A mean, the least and the greatest ones do not. */
export const addsUp = (column) => column === "count" || column.startsWith("sum(");

// ---- what there is

/** The columns that can be asked for. */
export function columnsOf(state) {
  const kinds = ["sum", "avg", "min", "max"];
  const ofMeasure = ({ name }) => kinds.map((kind) => `${kind}(${name})`);
  return ["count", ...state.measures.flatMap(ofMeasure)];
}

/** What can be grouped by. */
export function groupsOf(state) {
  return state.attributes.flatMap(({ name, kind }) => [
    name,
    ...(kind === "day" ? [`month(${name})`] : []),
    ...(kind === "day" || kind === "month" ? [`year(${name})`] : []),
  ]);
}

/** The attributes that are grouped by or have a condition. */
const needed = () => [...new Set([...wanted.by.map(attributeOf), ...Object.keys(wanted.where)])];

/** Why an attribute cannot be asked for beside what is wanted; nothing if it can. */
export function whyNot(state, attribute) {
  const names = [...new Set([...needed(), attribute])];
  const covers = (view) => names.every((name) => view.attributes.includes(name));
  if (state.views.some(covers)) return "";
  return `no view has ${names.join(", ")}${names.length > 1 ? " together" : ""}`;
}

// ---- what is wanted

/** Takes what the address of the page keeps, as far as it has the form of a question. */
export function readAddress() {
  try {
    const given = JSON.parse(decodeURIComponent(location.hash.slice(1)));
    const isList = (each) => Array.isArray(each) && each.every((text) => typeof text === "string");
    if (isList(given.columns)) wanted.columns = given.columns;
    if (isList(given.by)) wanted.by = given.by;
    if (given.where && typeof given.where === "object") wanted.where = named(given.where);
    if (KINDS.includes(given.kind)) wanted.kind = given.kind;
    if (["value", "group"].includes(given.order)) wanted.order = given.order;
    if (given.most >= 1) wanted.most = Math.min(Math.floor(given.most), 20_000);
    return true;
  } catch {
    return false; // There is no question in the address.
  }
}

/** Keeps what is wanted in the address. */
export function writeAddress() {
  history.replaceState(null, "", `#${encodeURIComponent(JSON.stringify(wanted))}`);
}

/** Drops what the folder does not have, which may be another one than the address was made for. */
export function fit(state) {
  const [columns, groups] = [columnsOf(state), groupsOf(state)];
  const attributes = state.attributes.map(({ name }) => name);
  const isValue = (each) => each && typeof each === "object"
    && [each.from, each.to].every((text) => text === undefined || typeof text === "string");
  wanted.columns = wanted.columns.filter((name) => columns.includes(name));
  if (!wanted.columns.length) wanted.columns = ["count"];
  wanted.by = [...new Set(wanted.by)].filter((name) => groups.includes(name));
  const isThere = ([name, value]) => attributes.includes(name) && isValue(value);
  wanted.where = named(Object.fromEntries(Object.entries(wanted.where).filter(isThere)));
}

/** The question that a page begins with: the first measure by the first group that a view has. */
export function begin(state) {
  if (state.measures.length) wanted.columns = [`sum(${state.measures[0].name})`];
  const can = (attribute) => !whyNot(state, attribute.name);
  const first = state.attributes.find((each) => isTime(each.kind) && can(each))
    || state.attributes.find(can);
  if (first) wanted.by = [first.kind === "day" ? `month(${first.name})` : first.name];
}

/** Takes a column into the question, or out of it; one stays. */
export function toggleColumn(name) {
  const at = wanted.columns.indexOf(name);
  if (at < 0) wanted.columns.push(name);
  else if (wanted.columns.length > 1) wanted.columns.splice(at, 1);
}

/** Takes a group into the question, or out of it, or in place of another part of its date. */
export function toggleGroup(name) {
  const at = wanted.by.findIndex((each) => attributeOf(each) === attributeOf(name));
  if (at < 0) wanted.by.push(name);
  else if (wanted.by[at] === name) wanted.by.splice(at, 1);
  else wanted.by[at] = name;
}

// ---- its text

const isPlain = (value) => /^[A-Za-z0-9_.+-]+$/.test(value);
const quoted = (value) => (isPlain(value) ? value : `"${value.replace(/"/g, '""')}"`);

/** A condition: a text is one value; a number or a date may be a range. */
function condition(state, name, { from = "", to = "" }) {
  if (state.attributes.find((each) => each.name === name).kind === "text") {
    return `${name}=${quoted(from)}`;
  }
  return `${name}=${to === "" || to === from ? from : `${from || 0}..${to}`}`;
}

/** The question as `cube ask` takes it. */
export function slice(state) {
  const where = Object.entries(wanted.where).map(([name, each]) => condition(state, name, each));
  return wanted.columns.join(",")
    + (wanted.by.length ? ` by ${wanted.by.join(",")}` : "")
    + (where.length ? ` where ${where.join(" and ")}` : "");
}
