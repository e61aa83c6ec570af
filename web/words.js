// The texts of the page, of words.json: a translation is that file in another language (make web WORDS=FILE).

const WORDS = {}; // words.json

/** The text with a name. What stands in braces there is put in. */
export function say(name, values = {}) {
  const text = WORDS[name] ?? name;
  return text.replace(/\{(\w+)\}/g, (_, word) => String(values[word] ?? ""));
}

/** A number as the language writes it. */
export const grouped = (number) => number.toLocaleString(say("language"));

/** A number, with what is counted: `name` for one, `name-s` for others. */
export const counted = (number, name) => say(number === 1 ? name : `${name}-s`, { number: grouped(number) });
