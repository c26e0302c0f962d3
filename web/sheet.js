// SPDX-License-Identifier: MIT
// The order sheet, which is printed on A4: the picture with its measures, the panels, and the rows with their numbers.
import { PANEL_MILLIMETRES } from "./undrwyth.js";
import { convexWord, cornerText, counted, walkSentence } from "./words.js";
import { boxOf, frameOf, gridLayer, measuresLayer, picture, rowNumbersLayer, spansLayer, wallsLayer } from "./picture.js";
import { numberedRows, pointsOfWkb } from "./save.js";
import { byId, element, showFacts, table } from "./parts.js";

const inMillimetres = (panels) => `${(panels * PANEL_MILLIMETRES).toLocaleString("en")} mm`;

/** The room: the numbers of its rows to its left, its width above it, its depth to its right, and the lengths of its walls. */
function sheetPicture({ walk, start, spans, wkb, hull }) {
  const box = boxOf(hull.corners), bends = pointsOfWkb(wkb).map(([x, y]) => [x / PANEL_MILLIMETRES, y / PANEL_MILLIMETRES]);
  const frame = frameOf(box, { width: 640, height: 520, margin: 0, most: 64, text: 12, rim: 34 });
  return picture(frame, walkSentence(walk, start), [
    spansLayer(frame, spans, { class: "inside" }), gridLayer(frame, { numbers: false }), rowNumbersLayer(frame, spans),
    wallsLayer(frame, bends, Math.sign(walk.area), (panels) => String(panels * PANEL_MILLIMETRES)),
    measuresLayer(frame, box, inMillimetres),
  ]);
}

/** What is ordered, in words. */
function sheetFacts({ walk, start, convex }, [west, south, east, north], rows) {
  const list = element("dl"), [wide, deep] = [inMillimetres(east - west), inMillimetres(north - south)];
  showFacts(list, [
    ["Panels to order", `${walk.panels.toLocaleString("en")}, each ${PANEL_MILLIMETRES} by ${PANEL_MILLIMETRES} mm`],
    ["Size of the room", `${wide} wide (west to east), ${deep} deep (south to north), ${convexWord(convex)}`],
    ["Rows", `${rows.at(-1).number}, from south to north, in ${counted(rows.length, "run")} of panels`],
    ["Survey", `starts at ${cornerText(start)}; ${walkSentence(walk, start)}`],
  ]);
  return list;
}

/** The rows as a fitter lays them: panels are counted from the westmost wall. */
function sheetRows(rows, west) {
  const lines = rows.map(({ number, first, last, panels }) =>
    [number, first - west + 1, last - west + 1, panels, inMillimetres(first - west), inMillimetres(panels)]);
  return table(["row", "from panel", "to panel", "panels", "from the west wall", "length"], lines);
}

/** Fills the sheet for the walk that is shown, with these words. What is not a room has no order. */
export function fillSheet(known, record, said) {
  const heading = element("h1", {}, "Order sheet: floor panels"), last = element("p", { className: "mono" }, `Record ${record}`);
  if (!known?.spans) return byId("sheet").replaceChildren(heading, element("p", {}, `There is no order: ${said}.`), last);
  const box = boxOf(known.hull.corners), rows = numberedRows(known.spans);
  byId("sheet").replaceChildren(
    heading, sheetFacts(known, box, rows), element("div", { className: "figure" }, sheetPicture(known)), sheetRows(rows, box[0]),
    element("p", {}, "Rows are counted from the south, panels from the westmost wall. Walls in the picture are in millimetres."),
    last, element("div", { className: "sign" }, element("span", {}, "Date"), element("span", {}, "Ordered by")),
  );
}
