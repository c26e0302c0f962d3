// SPDX-License-Identifier: MIT
// Parts of the page that its views share. Text is always put in as text: nothing that a reader typed becomes markup.

export const byId = (id) => document.getElementById(id);

/** An element with its properties and children; a child that is a string is text. */
export function element(name, properties = {}, ...children) {
  const made = document.createElement(name);
  for (const [key, value] of Object.entries(properties)) {
    if (key in made) made[key] = value;
    else made.setAttribute(key, value);
  }
  made.append(...children);
  return made;
}

/** Says something in a live region. It is written anew even if it is the same, so that it is spoken again. */
export function say(place, text) {
  place.textContent = "";
  place.textContent = text;
}

/** The pixels that a picture may take in its place, and the size of letters that the reader has chosen. */
export function roomFor(place, height = 520) {
  const letter = parseFloat(getComputedStyle(document.documentElement).fontSize) || 16;
  return { width: Math.max(240, place.clientWidth - 2), height, text: 0.82 * letter, most: 4 * letter };
}

/** A list of names and values as dt and dd. */
export function showFacts(list, facts) {
  list.replaceChildren(...facts.flatMap(([name, value]) => [element("dt", {}, name), element("dd", {}, String(value))]));
}

/** A table with a line of names; a column whose name begins with a star has words, the others numbers. */
export function table(names, lines) {
  const look = names.map((name) => (name.startsWith("*") ? "word" : ""));
  const head = names.map((name, i) => element("th", { scope: "col", className: look[i] }, name.replace(/^\*/, "")));
  const row = (line) => element("tr", {}, ...line.map((text, i) => element("td", { className: look[i] }, String(text))));
  return element("table", {}, element("thead", {}, element("tr", {}, ...head)), element("tbody", {}, ...lines.map(row)));
}

/** A line of text with its faulty character marked; of a long line the part around it. */
export function marked(line, fault, around = 60) {
  if (fault < 0) return [line.length > 2 * around ? line.slice(0, 2 * around) + "…" : line];
  const character = String.fromCodePoint(line.codePointAt(fault) ?? 32);
  const from = Math.max(0, fault - around), to = fault + character.length + around;
  const before = (from > 0 ? "…" : "") + line.slice(from, fault);
  const after = line.slice(fault + character.length, to) + (to < line.length ? "…" : "");
  return [before, element("mark", {}, character), after];
}

/** Shows a line with its fault in a place, or hides the place if there is none. */
export function showFault(place, line, fault) {
  place.hidden = fault < 0;
  place.replaceChildren(...(fault < 0 ? [] : marked(line, fault)));
}

/** The number in a field; what is not a whole number is 0. */
export const numberIn = (id) => (Number.isInteger(byId(id).valueAsNumber) ? byId(id).valueAsNumber : 0);

/** The step that a key asks for, 4 for a take-back, or -1. */
export function stepOfKey(key) {
  const steps = { ArrowRight: 0, ArrowUp: 1, ArrowLeft: 2, ArrowDown: 3, e: 0, n: 1, w: 2, s: 3, Backspace: 4 };
  return steps[key.length === 1 ? key.toLowerCase() : key] ?? -1;
}

/** Whether a key is meant for the field that has the focus. */
export function isTyping(event) {
  const meant = "textarea, input:not([type=checkbox]), [role=tab], [role=listbox], .scrolled";
  return event.ctrlKey || event.metaKey || event.altKey || event.target.matches?.(meant);
}

/** The bytes of a file that the reader chose. */
export const bytesOfFile = async (file) => new Uint8Array(await file.arrayBuffer());

/** Puts a text on the clipboard: whether it is there. A page from a disk may have to do it the old way, by a marked field. */
export async function copyText(text) {
  try {
    await navigator.clipboard.writeText(text);
    return true;
  } catch {
    const field = element("textarea", { value: text }), before = document.activeElement;
    document.body.append(field);
    field.select();
    const done = document.execCommand("copy");
    field.remove();
    before?.focus();
    return done;
  }
}
