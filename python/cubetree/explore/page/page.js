// What all parts of the page use. Whatever comes from the warehouse goes into the page as text,
// never as markup.
"use strict";

/** The element with this id. */
export const $ = (id) => document.getElementById(id);

/** An element with these properties and attributes, and what is in it. */
export function make(tag, words = {}, ...inside) {
  const made = document.createElement(tag);
  for (const [name, value] of Object.entries(words)) {
    if (name in made && !name.includes("-")) made[name] = value;
    else made.setAttribute(name, value);
  }
  made.append(...inside);
  return made;
}

/** Puts elements in place of those that are there; the focus stays on the one with its key. */
export function replace(parent, ...inside) {
  const key = parent.contains(document.activeElement) && document.activeElement.dataset.key;
  parent.replaceChildren(...inside);
  const same = key && [...parent.querySelectorAll("[data-key]")].find((e) => e.dataset.key === key);
  if (same) same.focus();
}

/** A button that is pressed or not; one that cannot be pressed says why. */
export function chip(key, text, { pressed = false, why = "", title = "", call }) {
  const made = make("button", { type: "button", className: "chip", textContent: text });
  made.dataset.key = key;
  made.title = why || title;
  made.setAttribute("aria-pressed", String(pressed));
  if (text !== key) made.setAttribute("aria-label", key);
  if (why) made.setAttribute("aria-disabled", "true");
  made.addEventListener("click", call);
  return made;
}

/** A head of a table, and its rows of texts; numbers stand to the right. */
export function fill(table, heads, rows, isNumber) {
  const classOf = (at) => (isNumber(at) ? "number" : "");
  const cell = (inside, at) => make("td", { className: classOf(at) }, inside);
  const head = (inside, at) => make("th", { className: classOf(at), scope: "col" }, inside);
  replace(table.tHead, make("tr", {}, ...heads.map(head)));
  replace(table.tBodies[0], ...rows.map((row) => make("tr", {}, ...row.map(cell))));
}

// ---- asking

/** A word of an address. A byte that is no UTF-8 came as half of a pair, from U+DC80 on. */
export function encoded(text) {
  const one = (letter) => {
    if (/^[\udc80-\udcff]$/.test(letter)) return `%${(letter.charCodeAt(0) - 0xdc00).toString(16)}`;
    return /^[\ud800-\udfff]$/.test(letter) ? "%EF%BF%BD" : encodeURIComponent(letter);
  };
  return Array.from(text, one).join("");
}

/** What the server answers: an object, which has a `fault` where there is one. */
export async function get(path, signal) {
  try {
    const reply = await fetch(path, { signal, credentials: "same-origin" });
    const isJson = (reply.headers.get("Content-Type") || "").includes("json");
    return isJson ? await reply.json() : { fault: (await reply.text()).trim() };
  } catch (fault) {
    if (fault.name === "AbortError") return { aborted: true };
    return { ended: true, fault: "cube explore has ended: run it again, and open its address" };
  }
}
