// SPDX-License-Identifier: MIT
// The view of many records: each line with its verdict in words. Only the lines that are seen are in the page; the others are
// objects in memory.
import { ROOM, VERDICTS } from "./undrwyth.js";
import { counted, walkSentence } from "./words.js";
import { walkPicture } from "./picture.js";
import { judgeLine } from "./record.js";
import { known, spaced } from "./walk.js";
import { bytesOfFile, byId, element, marked, roomFor, say } from "./parts.js";

const SLICE = 12;        // milliseconds of judging before the page may draw again
const PATIENCE = 300;    // milliseconds after which the progress is shown
const SPARE = 6;         // rows above and below those that are seen

const KINDS = ["no step", "open", "room", "open, crossed", "closed, crossed", "there and back", "refused"];
const REFUSED = VERDICTS.length;

/** The lines of a text: the last may lack its line feed. */
function linesOf(text) {
  const lines = text.split("\n");
  if (lines.at(-1) === "") lines.pop();
  return lines;
}

/** What the list holds of a judged line. */
function entryOf(judge, line) {
  const { walk, start, key, sentence, fault, line: text } = judgeLine(judge, line, { table: false, marks: false });
  if (!walk) return { text, key, kind: REFUSED, panels: 0, fault, words: `refused: ${sentence}` };
  return { text, key, kind: walk.verdict, panels: walk.panels, fault: -1, words: walkSentence(walk, start) };
}

export class RecordsView {
  #judge;
  #open;           // opens a line under Walk
  #entries = [];
  #seen = [];      // the numbers of the lines that the filter lets through
  #kind = -1;      // the filter, or -1
  #selected = -1;  // a place in #seen
  #run = 0;        // the number of the last run: an older one stops
  #rowPixels = 60;

  constructor(judge, open) {
    this.#judge = judge;
    this.#open = open;
    byId("lines").addEventListener("input", () => this.judgeText(byId("lines").value));
    byId("lines-file").addEventListener("change", () => this.#takeFile(byId("lines-file").files[0]));
    byId("chosen-open").addEventListener("click", () => this.#open(this.#entries[this.#seen[this.#selected]].text));
    byId("list").addEventListener("scroll", () => this.#drawRows());
    byId("list").addEventListener("keydown", (event) => this.#key(event));
    byId("list").addEventListener("click", (event) => this.#choose(Number(event.target.closest(".row")?.dataset.place ?? -1)));
    this.#listenToDrops();
    this.#showTotals();
  }

  /** A file may be dropped anywhere on the page while this view is shown. */
  #listenToDrops() {
    const here = (event) => !byId("view-records").hidden && event.dataTransfer?.types.includes("Files");
    document.addEventListener("dragover", (event) => {
      if (!here(event)) return;
      event.preventDefault();
      byId("drop").classList.add("dropping");
    });
    document.addEventListener("dragleave", () => byId("drop").classList.remove("dropping"));
    document.addEventListener("drop", (event) => {
      if (!here(event)) return;
      event.preventDefault();
      byId("drop").classList.remove("dropping");
      this.#takeFile(event.dataTransfer.files[0]);
    });
  }

  async #takeFile(file) {
    if (file) await this.judgeText(new TextDecoder().decode(await bytesOfFile(file)));
  }

  /** Judges all lines of a text, a slice of time after the other, and lists them. */
  async judgeText(text) {
    const run = ++this.#run, lines = linesOf(text), entries = [], began = performance.now(), bar = byId("progress");
    const left = () => lines.length - entries.length;
    while (left() > 0) {
      const until = performance.now() + SLICE;
      while (left() > 0 && performance.now() < until) entries.push(entryOf(this.#judge, lines[entries.length]));
      if (left() === 0) break;
      bar.hidden = performance.now() - began < PATIENCE;
      bar.value = entries.length / lines.length;
      await new Promise((resume) => setTimeout(resume));
      if (run !== this.#run) return;
    }
    bar.hidden = true;
    this.#entries = entries;
    this.#kind = -1;
    this.#showTotals();
    this.#filter();
  }

  /** The totals in words, and a button for each kind of line that there is. */
  #showTotals() {
    const counts = KINDS.map(() => 0);
    let panels = 0;
    for (const entry of this.#entries) {
      counts[entry.kind]++;
      panels += entry.panels;
    }
    const all = this.#entries.length, many = (count, thing) => counted(count, thing).replace(count, spaced(count));
    const rooms = `${many(counts[ROOM], "room")} with ${many(panels, "panel")}`;
    const totals = `${many(all, "line")}: ${rooms}, ${spaced(counts[REFUSED])} refused.`;
    say(byId("totals"), all === 0 ? "There are no lines yet." : totals);
    const kinds = KINDS.map((name, kind) => [kind, name, counts[kind]]).filter(([, , count]) => count > 0);
    byId("filters").replaceChildren(...(all === 0 ? [] : [[-1, "all", all], ...kinds]).map((one) => this.#filterButton(...one)));
  }

  #filterButton(kind, name, count) {
    const made = element("button", { type: "button", "aria-pressed": String(kind === this.#kind) }, `${name}: ${spaced(count)}`);
    made.dataset.kind = kind;
    made.addEventListener("click", () => this.#filterBy(kind));
    return made;
  }

  #filterBy(kind) {
    this.#kind = kind;
    for (const button of byId("filters").children)
      button.setAttribute("aria-pressed", String(Number(button.dataset.kind) === kind));
    this.#filter();
  }

  #filter() {
    const numbers = this.#entries.map((_, i) => i);
    this.#seen = this.#kind < 0 ? numbers : numbers.filter((i) => this.#entries[i].kind === this.#kind);
    this.#selected = -1;
    byId("list").scrollTop = 0;
    this.#showChosen();
    this.draw();
  }

  /** Draws the list anew; the height of a row follows the reader's text. */
  draw() {
    const list = byId("list"), probe = element("div", { className: "row" });
    list.replaceChildren(probe);
    this.#rowPixels = probe.getBoundingClientRect().height || 60;
    const height = element("div");
    height.style.height = `${this.#seen.length * this.#rowPixels}px`;
    list.replaceChildren(height);
    this.#drawRows();
    if (this.#selected >= 0) this.#showChosen();
  }

  /** Puts those rows into the page that are seen, and a few more. */
  #drawRows() {
    const list = byId("list"), first = Math.max(0, Math.floor(list.scrollTop / this.#rowPixels) - SPARE);
    const last = Math.min(this.#seen.length, Math.ceil((list.scrollTop + list.clientHeight) / this.#rowPixels) + SPARE);
    const rows = [];
    for (let place = first; place < last; place++) rows.push(this.#row(place));
    list.replaceChildren(list.firstChild, ...rows);
    if (this.#selected >= first && this.#selected < last) list.setAttribute("aria-activedescendant", `row-${this.#selected}`);
    else list.removeAttribute("aria-activedescendant");
  }

  #row(place) {
    const number = this.#seen[place], entry = this.#entries[number];
    const record = element("span", { className: "record mono" }, `${number + 1}  `, ...marked(entry.text, entry.fault, 24));
    const said = element("span", { className: "said" }, entry.words);
    const made = element("div", {
      className: "row", id: `row-${place}`, title: entry.words, role: "option", "aria-selected": place === this.#selected,
      "aria-posinset": place + 1, "aria-setsize": this.#seen.length,
    }, record, said);
    made.dataset.place = place;
    made.style.top = `${place * this.#rowPixels}px`;
    return made;
  }

  #key(event) {
    const page = Math.max(1, Math.floor(byId("list").clientHeight / this.#rowPixels) - 1), end = this.#seen.length - 1;
    const at = this.#selected;
    const to = { ArrowDown: at + 1, ArrowUp: at - 1, PageDown: at + page, PageUp: at - page, Home: 0, End: end }[event.key];
    if (event.key === "Enter" && this.#selected >= 0) this.#open(this.#entries[this.#seen[this.#selected]].text);
    if (to === undefined) return;
    event.preventDefault();
    this.#choose(Math.max(0, Math.min(to, end)));
  }

  #choose(place) {
    if (place < 0 || place >= this.#seen.length) return;
    this.#selected = place;
    const list = byId("list"), top = place * this.#rowPixels;
    if (top < list.scrollTop) list.scrollTop = top;
    if (top + this.#rowPixels > list.scrollTop + list.clientHeight) list.scrollTop = top + this.#rowPixels - list.clientHeight;
    this.#drawRows();
    this.#showChosen();
  }

  /** The chosen line in full, with its words and a small picture. */
  #showChosen() {
    const number = this.#seen[this.#selected], entry = this.#entries[number], place = byId("chosen-picture");
    byId("chosen-open").disabled = !entry || entry.kind === REFUSED;
    byId("chosen-line").replaceChildren(...(entry ? marked(entry.text, entry.fault) : []));
    if (!entry) say(byId("chosen-words"), "Choose a line with the arrow keys or a tap: here is its picture.");
    else byId("chosen-words").textContent = `Line ${spaced(number + 1)}${entry.key ? `, ${entry.key}` : ""}: ${entry.words}`;
    if (!entry || entry.kind === REFUSED) return place.replaceChildren();
    const { walk, start } = judgeLine(this.#judge, entry.text, { table: false, marks: false });
    const { hull, spans } = known(this.#judge, walk, start), small = { ...roomFor(place, 320), most: 32, least: [6, 2] };
    place.replaceChildren(walkPicture({ walk, start, hull, spans, title: entry.words }, small).element);
  }
}
