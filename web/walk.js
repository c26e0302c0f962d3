// SPDX-License-Identifier: MIT
// The view of one walk: keys and taps make steps, and after each the picture and the words are those of the walk so far.
import { MOST_LINE_DIGITS, PANEL_MILLIMETRES, ROOM, bytesOfHex } from "./undrwyth.js";
import { OPERATION_NAMES, convexWord, cornerText, counted, meetingCorner } from "./words.js";
import { orthogonalSentence, refusalSentence, walkSentence } from "./words.js";
import { pictureFile, stepOfTap, walkPicture } from "./picture.js";
import { dxfOf, geojsonOf, hexOf, numberedRows, rowsCsv, saveFile } from "./save.js";
import { fragmentOf, judgeLine, lineOf, recordOf } from "./record.js";
import { bytesOfFile, byId, copyText, element, isTyping, numberIn, roomFor } from "./parts.js";
import { say, showFacts, showFault, stepOfKey, table } from "./parts.js";
import { fillSheet } from "./sheet.js";

const MOST_LINES = 1000; // of a table on the page

/** All that the proved calls answer of a walk: hull and outline, and of a room rows, convexity and polygon. */
export function known(judge, walk, start) {
  const { chain } = walk, answers = { walk, start, hull: judge.hull(chain, start), outline: judge.outline(chain, start) };
  if (walk.verdict !== ROOM) return { ...answers, spans: null };
  const { spans } = judge.rows(chain, start), { convex } = judge.convex(chain, start);
  return { ...answers, spans, convex, wkb: judge.polygonOfRoom(chain, start).wkb };
}

/** Width and height of the box around a walk's hull, in panels. */
function sizeOf(hull) {
  const [xs, ys] = [0, 1].map((axis) => hull.corners.map((corner) => corner[axis]));
  return [Math.max(...xs) - Math.min(...xs), Math.max(...ys) - Math.min(...ys)];
}

/** 6000 as 6,000 */
export const spaced = (number) => number.toLocaleString("en");

export class WalkView {
  #judge;
  #ops = "";     // the operations of the walk that is shown, as digits
  #start = [0, 0];
  #known = null; // what is known of it; null if a refused record is shown
  #said = "";    // the sentence
  #line = "";    // what a link holds
  #frame = null;
  #picture = null;
  #shown; // called whenever another record is shown

  constructor(judge, shown) {
    this.#judge = judge;
    this.#shown = shown;
    this.#listenToKeys();
    this.#listenToForm();
    this.#listenToFiles();
    const choices = ["show-hull", "show-outline", "show-orthogonal", "show-rows"];
    for (const id of choices) byId(id).addEventListener("change", () => this.draw());
    byId("grid").addEventListener("input", () => {
      this.#showHull();
      this.draw();
    });
    byId("marks-details").addEventListener("toggle", () => this.#showMarks());
  }

  /** The record that is shown, refused or not. */
  get record() {
    return this.#known ? recordOf(this.#ops) : byId("record").value;
  }

  get start() {
    return this.#start;
  }

  #listenToKeys() {
    document.addEventListener("keydown", (event) => {
      const step = stepOfKey(event.key);
      if (byId("view-walk").hidden || step < 0 || isTyping(event)) return;
      event.preventDefault();
      this.step(step);
    });
    for (const button of document.querySelectorAll("[data-step]"))
      button.addEventListener("click", () => this.step(Number(button.dataset.step)));
    byId("clear").addEventListener("click", () => {
      this.show("", this.#start);
      if (!this.#known) this.show("", [0, 0]); // the start was what is refused
      byId("picture").focus();
    });
    byId("picture").addEventListener("click", (event) => this.#tap(event));
  }

  /** A tap near one of the four next corners is a step. */
  #tap(event) {
    const step = this.#known ? stepOfTap(this.#frame, this.#picture, event, this.#known.walk.last) : -1;
    if (step >= 0) this.step(step);
  }

  #listenToForm() {
    byId("record-form").addEventListener("submit", (event) => {
      event.preventDefault();
      this.open(byId("record").value.trim(), [numberIn("start-x"), numberIn("start-y")]);
    });
    byId("copy-record").addEventListener("click", () => this.#copy(this.record, "The record is copied."));
    const link = () => location.href.split("#")[0] + fragmentOf(this.#line);
    byId("copy-link").addEventListener("click", () => this.#copy(link(), "A link to this record is copied."));
  }

  async #copy(text, said) {
    const otherwise = "This browser does not let the page copy. Mark the record in its field, and copy it there.";
    say(byId("copied"), (await copyText(text)) ? said : otherwise);
  }

  #listenToFiles() {
    const save = (id, name, type, content) => byId(id).addEventListener("click", () => saveFile(name, content(), type));
    save("save-svg", "walk.svg", "image/svg+xml", () => pictureFile(this.#picture));
    save("save-csv", "rows.csv", "text/csv", () => rowsCsv(this.#known.spans));
    save("save-wkb", "room.wkb", "application/octet-stream", () => this.#known.wkb);
    save("save-hex", "room.hex", "text/plain", () => hexOf(this.#known.wkb) + "\n");
    save("save-geojson", "room.geojson", "application/geo+json", () => geojsonOf(this.#known, this.record));
    save("save-dxf", "room.dxf", "application/dxf", () => dxfOf(this.#known));
    byId("print").addEventListener("click", () => window.print());
    addEventListener("beforeprint", () => fillSheet(this.#known, this.record, this.#said));
    byId("open-file").addEventListener("change", async () => {
      const [file] = byId("open-file").files;
      if (file) this.openPolygon(await bytesOfFile(file));
    });
    byId("open-form").addEventListener("submit", (event) => {
      event.preventDefault();
      this.openPolygon(new TextEncoder().encode(byId("open-hex").value));
    });
  }

  /** Opens a polygon: Well-Known Binary, or its hexadecimal digits. Binary begins with byte 0 or 1, which is not a character. */
  openPolygon(bytes) {
    const binary = bytes.length > 0 && bytes[0] <= 1;
    const file = binary ? bytes : bytesOfHex(new TextDecoder().decode(bytes));
    if (file === null) return say(byId("open-words"), "refused: the text is not hexadecimal, two digits a byte");
    const read = this.#judge.chainOfPolygon(file);
    if (read.refusal) return say(byId("open-words"), "refused: " + refusalSentence(read.refusal));
    say(byId("open-words"), `a polygon of ${counted(read.steps, "step")} from ${cornerText(read.start)}`);
    this.show(read.digits, read.start);
  }

  /** One operation more. What the judge refuses is not taken, and the reason is said; a refused record goes on no further. */
  step(operation) {
    if (!this.#known) return say(byId("words"), this.#said);
    const ops = this.#ops + operation, walk = this.#judge.walk(ops, this.#start, { table: false });
    if (walk.refusal) return say(byId("words"), `refused: ${refusalSentence(walk.refusal, "the byte", 4)}`);
    this.#accept(ops, this.#start, walk);
  }

  /** Shows the record of a line; a start that stands in the line counts more than the one that is given. */
  open(line, start = [0, 0]) {
    const read = judgeLine(this.#judge, line.includes(",") ? line : `${start[0]},${start[1]},${line}`, { table: false });
    if (read.walk) return this.#accept(read.ops, read.start, read.walk);
    this.#refuse(line, read);
  }

  /** Shows operations, given as digits, from a start. */
  show(ops, start) {
    const walk = this.#judge.walk(ops, start, { table: false });
    if (walk.refusal) return say(byId("words"), `refused: ${refusalSentence(walk.refusal, "the byte", 4)}`);
    this.#accept(ops, start, walk);
  }

  #accept(ops, start, walk) {
    [this.#ops, this.#start, this.#known] = [ops, start, known(this.#judge, walk, start)];
    [this.#said, this.#line] = [walkSentence(walk, start), lineOf(ops, start)];
    byId("record").value = recordOf(ops);
    [byId("start-x").value, byId("start-y").value] = start;
    showFault(byId("record-fault"), "", -1);
    this.#showAll();
  }

  /** A refused record stays in its field, with its fault marked below. There is nothing to draw. */
  #refuse(line, read) {
    const before = read.line.length - line.length; // of the start, which was put before it
    [this.#ops, this.#start, this.#known] = ["", read.start, null];
    [this.#said, this.#line] = [`refused: ${read.sentence}`, read.line.replace(/^0,0,/, "")];
    byId("record").value = line;
    showFault(byId("record-fault"), line, read.fault < 0 ? -1 : read.fault - before);
    this.#showAll();
  }

  #showAll() {
    say(byId("words"), this.#said);
    this.draw();
    this.#showFacts();
    this.#showRoom();
    this.#showMarks();
    byId("save-svg").disabled = !this.#known;
    this.#shown(this.#line);
  }

  /** Draws the picture anew, as after a change of the window's width. */
  draw() {
    if (!this.#known) return byId("picture").replaceChildren();
    const { walk, start, hull, outline, spans } = this.#known, place = byId("picture"), asked = (id) => byId(id).checked;
    const around = spans && asked("show-orthogonal") ? this.#orthogonal() : null, orthogonal = around?.refusal ? null : around;
    const drawn = walkPicture({
      walk, start, spans, orthogonal, hull: asked("show-hull") ? hull : null, outline: asked("show-outline") ? outline : null,
      around: hull.corners[0], numbered: asked("show-rows"), next: true, title: walkSentence(walk, start),
    }, { ...roomFor(place), margin: 2, least: [5, 3] });
    this.#frame = drawn.frame;
    this.#picture = drawn.element;
    place.replaceChildren(drawn.element);
  }

  #showFacts() {
    if (!this.#known) return showFacts(byId("facts"), []);
    const { walk, start, hull } = this.#known, [width, height] = sizeOf(hull), at = meetingCorner(walk, start);
    const meets = walk.meeting && `at ${cornerText(at)}: corner ${walk.meeting[0]} is corner ${walk.meeting[1]}`;
    showFacts(byId("facts"), [
      ["First meeting", meets ?? "none"], ["Surviving steps", spaced(walk.steps)], ["Operations", spaced(this.#ops.length)],
      ["Stands at", cornerText(walk.last)], ["Different corners", spaced(walk.corners)], ["Nodes", spaced(walk.nodes)],
      ["Hull", `${counted(hull.count, "corner")}, ${spaced(width)} by ${spaced(height)} panels`],
      ["Outline", counted(this.#known.outline.count, "step")], ...this.#lineProgram(),
    ]);
  }

  /** The line program has a table of 320 records: whether it refuses what is shown here. */
  #lineProgram() {
    const walked = this.#ops.length <= MOST_LINE_DIGITS && this.#start[0] === 0 && this.#start[1] === 0;
    const { refusal } = walked ? this.#judge.line(recordOf(this.#ops)) : { refusal: null };
    return refusal ? [["Command judge", `refuses it: ${refusalSentence(refusal)}`]] : [];
  }

  #showRoom() {
    byId("room").hidden = !this.#known?.spans;
    if (!this.#known?.spans) return;
    const { walk, spans, convex, hull } = this.#known;
    const [width, height] = sizeOf(hull).map((panels) => spaced(panels * PANEL_MILLIMETRES));
    byId("room-words").textContent = `${counted(walk.panels, "panel")}, ${convexWord(convex)}, ${width} by ${height} mm`;
    byId("rows").replaceChildren(...rowsTable(spans));
    this.#showHull();
  }

  /** The orthogonal hull of the room, in blocks of the size that is asked for. */
  #orthogonal() {
    return this.#judge.orthogonalHull(this.#known.walk.chain, this.#start, numberIn("grid"));
  }

  #showHull() {
    const hull = this.#orthogonal();
    say(byId("orthogonal-words"), hull.refusal ? `refused: ${refusalSentence(hull.refusal)}` : orthogonalSentence(hull));
  }

  /** The table of marks, made when it is unfolded. */
  #showMarks() {
    if (!this.#known || !byId("marks-details").open) return byId("marks").replaceChildren();
    const { marks } = this.#known.walk;
    const line = ({ nodes, visits, changed }, i) => [i, OPERATION_NAMES[this.#ops[i]], nodes, visits, changed];
    const made = table(["place", "*operation", "nodes", "visits", "records changed"], marks.slice(0, MOST_LINES).map(line));
    byId("marks").replaceChildren(made, ...firstOf(marks.length));
  }
}

/** A note below a table that does not have all lines. */
function firstOf(count) {
  return count > MOST_LINES ? [element("p", {}, `These are the first ${spaced(MOST_LINES)} of ${spaced(count)}.`)] : [];
}

/** The rows of a room, numbered from the south. */
function rowsTable(spans) {
  const rows = numberedRows(spans.slice(0, MOST_LINES)), long = (panels) => spaced(panels * PANEL_MILLIMETRES);
  const lines = rows.map(({ number, row, first, last, panels }) => [number, row, first, last, panels, long(panels)]);
  return [table(["row", "y", "first x", "last x", "panels", "mm"], lines), ...firstOf(spans.length)];
}
