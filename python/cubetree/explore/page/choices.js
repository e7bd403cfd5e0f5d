// What can be chosen: columns, groups and kinds of charts.
"use strict";
import { $, chip, make, replace } from "./page.js";
import * as question from "./question.js";

const { wanted } = question;
const WORDS = { sum: "sum", avg: "mean", min: "min", max: "max" };
const NAMES = { "": "auto", bar: "bars", line: "lines", stack: "stacked" };

/** Draws the choices; `changed` is called when another question is chosen, and `drawn` when
 * another chart is. */
export function drawChoices(state, changed, drawn) {
  replace($("measures"), ...measures(state, changed));
  replace($("groups"), ...question.groupsOf(state).map((name) => group(state, name, changed)));
  $("covered").textContent = covered(state);
  replace($("kinds"), ...question.KINDS.map((kind) => chip(NAMES[kind], NAMES[kind], {
    pressed: wanted.kind === kind,
    call: () => { wanted.kind = kind; drawn(); },
  })));
  $("order").value = wanted.order;
  if (document.activeElement !== $("most")) $("most").value = wanted.most;
}

/** The columns: the count, and a line of chips for each measure. */
function measures(state, changed) {
  const column = (name, text) => chip(name, text, {
    pressed: wanted.columns.includes(name),
    call: () => { question.toggleColumn(name); changed(); },
  });
  const line = ({ name, title }) => make("div", { className: "measure" },
    make("span", { textContent: name, title }),
    ...Object.entries(WORDS).map(([word, text]) => column(`${word}(${name})`, text)));
  return [column("count", "count"), ...state.measures.map(line)];
}

/** What is grouped by, or can be. */
function group(state, name, changed) {
  const at = wanted.by.indexOf(name);
  const attribute = question.attributeOf(name);
  const why = at < 0 ? question.whyNot(state, attribute) : "";
  const toggle = () => {
    if (why) $("covered").textContent = `${name}: ${why}`;
    else { question.toggleGroup(name); changed(); }
  };
  const isNumbered = at >= 0 && wanted.by.length > 1;
  const { title } = state.attributes.find((each) => each.name === attribute);
  return chip(name, isNumbered ? `${at + 1}. ${name}` : name,
    { pressed: at >= 0, why, title, call: toggle });
}

/** What cannot be added to the question, in words. */
function covered(state) {
  const off = state.attributes.map(({ name }) => name)
    .filter((name) => question.whyNot(state, name));
  return off.length ? `No view has ${off.join(" or ")} together with what is chosen.` : "";
}
