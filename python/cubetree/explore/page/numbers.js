// Numbers as texts. They may have 39 digits and are exact, so they are added and compared as whole
// numbers of their last place; only the height of a bar is a rounded number.
"use strict";

const NUMBER = /^-?\d+(?:\.\d+)?$/;
const THIN = "\u2009";

export const isNumber = (text) => NUMBER.test(text);

/** A number for the eye: thin spaces between thousands, and a real minus. */
export function shown(text) {
  if (!isNumber(text)) return text;
  const [whole, rest] = text.replace("-", "").split(".");
  const spaced = whole.replace(/\B(?=(\d{3})+(?!\d))/g, THIN);
  return (text.startsWith("-") ? "\u2212" : "") + spaced + (rest === undefined ? "" : `.${rest}`);
}

/** The decimals of a number. */
const places = (text) => (text.split(".")[1] || "").length;

/** A number as a whole number of a place. */
const scaled = (text, place) => BigInt(text.replace(".", "") + "0".repeat(place - places(text)));

/** Less than 0, 0, or more: the order of two numbers; what is none comes first. */
export function compare(one, other) {
  if (!isNumber(one) || !isNumber(other)) return Number(isNumber(one)) - Number(isNumber(other));
  const place = Math.max(places(one), places(other));
  const [a, b] = [scaled(one, place), scaled(other, place)];
  return a < b ? -1 : Number(a > b);
}

/** The exact sum of two numbers. */
export function sum(one, other) {
  const place = Math.max(places(one), places(other));
  const total = scaled(one, place) + scaled(other, place);
  const digits = String(total < 0n ? -total : total).padStart(place + 1, "0");
  const at = digits.length - place;
  const sign = total < 0n ? "-" : "";
  return sign + digits.slice(0, at) + (place ? `.${digits.slice(at)}` : "");
}

/** A count with its word. */
export const counted = (count, word) => `${shown(String(count))} ${word}${count === 1 ? "" : "s"}`;

/** How many bytes, roundly. */
export function bytes(count) {
  if (count < 10_000) return counted(count, "byte");
  return count < 1e7 ? `${Math.round(count / 1000)} kB` : `${(count / 1e6).toFixed(1)} MB`;
}
