// SPDX-License-Identifier: MIT
// The view of two rooms that are laid over each other: three parts, each with a colour, a pattern and its count.
import { ROOM } from "./undrwyth.js";
import { cornersOf, counted, overlaySentence, walkSentence } from "./words.js";
import { boxOf, frameOf, gridLayer, partsLayer, picture, pictureFile, svg, walkLayer } from "./picture.js";
import { judgeLine } from "./record.js";
import { partsCsv, saveFile } from "./save.js";
import { byId, element, numberIn, roomFor, say, showFault } from "./parts.js";

const PARTS = { first: "in the first only, stripes up", second: "in the second only, stripes down", both: "in both, dots" };

export class RoomsView {
  #judge;
  #walk;          // the view of the walk, from which a room may be taken
  #laid = null;   // the two rooms and what the overlay answered, or null
  #picture = null;

  constructor(judge, walk) {
    this.#judge = judge;
    this.#walk = walk;
    byId("rooms-form").addEventListener("submit", (event) => {
      event.preventDefault();
      this.lay();
    });
    for (const which of ["first", "second"]) byId(`${which}-take`).addEventListener("click", () => this.#take(which));
    byId("overlay-csv").addEventListener("click", () => saveFile("parts.csv", partsCsv(this.#laid.answer), "text/csv"));
    byId("overlay-svg").addEventListener("click", () => saveFile("overlay.svg", pictureFile(this.#picture), "image/svg+xml"));
    this.lay();
  }

  /** The walk that is shown under Walk becomes one of the rooms. */
  #take(which) {
    byId(which).value = this.#walk.record;
    [byId(`${which}-x`).value, byId(`${which}-y`).value] = this.#walk.start;
    this.lay();
  }

  /** The room of a field, or null after the reason was said. */
  #room(which) {
    const start = [numberIn(`${which}-x`), numberIn(`${which}-y`)], before = `${start[0]},${start[1]},`;
    const line = byId(which).value.trim(), read = judgeLine(this.#judge, before + line, { table: false, marks: false });
    showFault(byId(`${which}-fault`), line, read.fault < 0 ? -1 : read.fault - before.length);
    if (read.walk?.verdict === ROOM) return read;
    const why = read.walk === null ? `refused: ${read.sentence}` : walkSentence(read.walk, start);
    say(byId("overlay-words"), `The ${which} record is not a room: ${why}`);
    return null;
  }

  lay() {
    const first = this.#room("first"), second = first && this.#room("second");
    const answer = second && this.#judge.overlay(first.walk.chain, second.walk.chain, first.start, second.start);
    this.#laid = answer ? { first, second, answer } : null;
    for (const id of ["overlay-csv", "overlay-svg"]) byId(id).disabled = !answer;
    if (answer) say(byId("overlay-words"), overlaySentence(answer));
    this.draw();
  }

  draw() {
    const place = byId("overlay-picture");
    if (!this.#laid) {
      byId("overlay-legend").replaceChildren();
      return place.replaceChildren();
    }
    const { first, second, answer } = this.#laid;
    const [one, other] = [first, second].map(({ walk, start }) => cornersOf(walk.chain, start));
    const frame = frameOf(boxOf(one, other), roomFor(place));
    this.#picture = picture(frame, overlaySentence(answer), [
      partsLayer(frame, answer), gridLayer(frame), walkLayer(frame, first.walk.chain, one, "first"),
      walkLayer(frame, second.walk.chain, other, "second"),
    ]);
    place.replaceChildren(this.#picture);
    const item = ([name, words]) => element("li", {}, swatch(name), `${counted(answer[name].panels, "panel")} ${words}`);
    byId("overlay-legend").replaceChildren(...Object.entries(PARTS).map(item));
  }
}

/** A small piece of a part's pattern. */
function swatch(name) {
  const none = { spans: [] }, one = { spans: [{ row: 0, first: 0, last: 0 }] };
  const frame = { px: (x) => x * 40, py: (y) => (1 - y) * 28 };
  const layer = partsLayer(frame, { first: none, second: none, both: none, [name]: one });
  return svg("svg", { viewBox: "0 0 40 28", "aria-hidden": "true" }, ...layer);
}
