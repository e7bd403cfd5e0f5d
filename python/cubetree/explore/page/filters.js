// The filters: for each attribute a value, or the ends of a range, with the values that there are.
"use strict";
import { $, encoded, get, make } from "./page.js";
import * as numbers from "./numbers.js";
import { isTime, wanted, whyNot } from "./question.js";

const FORMS = { day: "2025, 2025-03 or 2025-03-14", month: "2025 or 2025-03" }; // of dates
const KEYS = ["from", "to"];

/** Makes the filters of a schema; `changed` is called when another value is chosen. */
export function makeFilters(state, changed) {
  $("filters").replaceChildren(...state.attributes.map((each) => filter(each, changed)));
}

/** Lets those be filled in that a view has beside what is wanted. */
export function drawFilters(state) {
  for (const { name } of state.attributes) {
    const why = wanted.where[name] ? "" : whyNot(state, name);
    for (const input of inputs(name)) {
      input.disabled = why !== "";
      input.title = why;
    }
  }
}

const inputs = (name) => $("filters").querySelectorAll(`[data-name="${name}"] input`);

/** The filter of an attribute. */
function filter({ name, title, kind }, changed) {
  const list = make("datalist", { id: `values-${name}` });
  const raw = new Map(); // the values that are not as they are shown
  const fields = (kind === "text" ? ["is"] : ["is, or from", "to"]).map((hint, at) => {
    const value = (wanted.where[name] || {})[KEYS[at]] || "";
    const input = make("input", { value, placeholder: hint, autocomplete: "off" });
    input.setAttribute("list", list.id);
    input.setAttribute("aria-label", `${name}: ${hint}`);
    if (kind !== "text" && !isTime(kind)) input.inputMode = "numeric";
    input.addEventListener("change", () => { take(name, kind, fields, raw); changed(); });
    input.addEventListener("focus", () => offer(name, kind, list, raw));
    return input;
  });
  const box = make("div", {}, ...fields, list);
  const form = make("small", {}, FORMS[kind] || "");
  const label = make("div", { className: "name", title }, name, form);
  const made = make("div", { className: "filter" }, label, box);
  made.dataset.name = name;
  return made;
}

/** Takes what is filled in. A text may be empty, which is written as "". */
function take(name, kind, fields, raw) {
  const [from, to] = fields.map((field) => raw.get(field.value) ?? field.value.trim());
  if (from === "" && !to) delete wanted.where[name];
  else if (kind === "text") wanted.where[name] = { from: from === '""' ? "" : from };
  else wanted.where[name] = { from, to };
}

/** Offers the values that there are, when somebody looks for them. */
async function offer(name, kind, list, raw) {
  const { values } = await get(`values.json?name=${encoded(name)}`);
  if (!values) return; // No view has the attribute, or the folder is busy.
  const byText = (a, b) => (a < b ? -1 : Number(a > b));
  const order = isTime(kind) ? byText : numbers.compare;
  if (kind !== "text") values.sort((a, b) => order(a.value, b.value));
  for (const { value, shown } of values) if (value !== shown) raw.set(shown, value);
  list.replaceChildren(...values.map(({ value, shown, count }) => make("option", {
    value: value === "" ? '""' : shown,
    label: `${value === "" ? "(empty)" : shown} \u00b7 ${numbers.shown(count)}`,
  })));
}
