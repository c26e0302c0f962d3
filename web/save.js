// SPDX-License-Identifier: MIT
// Files that other programs open: what the proved calls wrote, in other forms.
import { PANEL_MILLIMETRES } from "./undrwyth.js";
import { counted } from "./words.js";

/** Two hexadecimal digits a byte. */
export const hexOf = (bytes) => Array.from(bytes, (byte) => byte.toString(16).padStart(2, "0")).join("");

/** The points of a polygon that the proved call wrote, [x, y] in millimetres; the last is the first. */
export function pointsOfWkb(wkb) {
  const view = new DataView(wkb.buffer, wkb.byteOffset, wkb.byteLength), points = [];
  for (let at = 13; at < wkb.byteLength; at += 16) points.push([view.getFloat64(at, true), view.getFloat64(at + 8, true)]);
  return points;
}

/** A room as GeoJSON: one polygon, counterclockwise as that format asks, in millimetres. */
export function geojsonOf({ wkb, walk, start }, record) {
  const points = pointsOfWkb(wkb), ring = walk.area > 0 ? points : points.reverse();
  const properties = { record, start, panels: walk.panels, steps: walk.steps, unit: "millimetre" };
  return JSON.stringify({ type: "Feature", properties, geometry: { type: "Polygon", coordinates: [ring] } }) + "\n";
}

/** Groups of a DXF: a code and a value each, a line for either. */
const groups = (...pairs) => pairs.map(([code, value]) => `${String(code).padStart(3)}\n${value}\n`).join("");

const dxfPoint = (code, [x, y]) => [[code, x], [code + 10, y], [code + 20, 0]];

/** What stands before the drawing: release 12, the unit (4 is the millimetre), decimal numbers, a kind of line and a layer. */
function dxfHead() {
  const units = [["$INSUNITS", 4], ["$MEASUREMENT", 1], ["$LUNITS", 2], ["$LUPREC", 0]];
  return groups(
    [999, "undrwyth page, millimetres"],
    [0, "SECTION"], [2, "HEADER"], [9, "$ACADVER"], [1, "AC1009"], ...units.flatMap(([name, value]) => [[9, name], [70, value]]),
    [0, "ENDSEC"], [0, "SECTION"], [2, "TABLES"],
    [0, "TABLE"], [2, "LTYPE"], [70, 1], [0, "LTYPE"], [2, "CONTINUOUS"], [70, 0], [3, "Solid line"], [72, 65], [73, 0], [40, 0],
    [0, "ENDTAB"], [0, "TABLE"], [2, "LAYER"], [70, 1], [0, "LAYER"], [2, "0"], [70, 0], [62, 7], [6, "CONTINUOUS"],
    [0, "ENDTAB"], [0, "ENDSEC"], [0, "SECTION"], [2, "ENTITIES"],
  );
}

/** A label in the middle of the room's longest span, and no wider than that. */
function dxfLabel(layer, spans, words) {
  const long = (span) => span.last - span.first + 1;
  const { row, first, last } = spans.reduce((longest, span) => (long(span) > long(longest) ? span : longest));
  const wide = long({ first, last }) * PANEL_MILLIMETRES;
  const middle = [first * PANEL_MILLIMETRES + wide / 2, (row + 0.5) * PANEL_MILLIMETRES];
  const high = Number(Math.min(PANEL_MILLIMETRES / 3, wide / (words.length + 1)).toPrecision(4));
  const [at, again] = [dxfPoint(10, middle), dxfPoint(11, middle)];
  return groups([0, "TEXT"], [8, layer], ...at, [40, high], [1, words], [72, 1], ...again, [73, 2]);
}

/** A room as a drawing for CAD, as `undrwyth dxf` draws it: a closed polyline and a label with its panels, in millimetres. */
export function dxfOf({ wkb, walk, spans }) {
  const layer = "ROOM-1", corners = pointsOfWkb(wkb).slice(0, -1);
  const outline = groups(
    [0, "POLYLINE"], [8, layer], [66, 1], ...dxfPoint(10, [0, 0]), [70, 1],
    ...corners.flatMap((point) => [[0, "VERTEX"], [8, layer], ...dxfPoint(10, point)]), [0, "SEQEND"], [8, layer],
  );
  return dxfHead() + outline + dxfLabel(layer, spans, `1: ${counted(walk.panels, "panel")}`) + groups([0, "ENDSEC"], [0, "EOF"]);
}

/** The rows of a room as a table: numbered from the south, with the coordinates of panels and what they measure. */
export function rowsCsv(spans) {
  const line = ({ number, row, first, last, panels }) => [number, row, first, last, panels, panels * PANEL_MILLIMETRES].join(",");
  return ["number,row,first,last,panels,millimetres", ...numberedRows(spans).map(line), ""].join("\n");
}

/** Spans with the number of their row, counted from the south from 1 on, and how many panels they have. */
export function numberedRows(spans) {
  let number = 0, before = null;
  return spans.map((span) => {
    if (span.row !== before) number++;
    before = span.row;
    return { number, ...span, panels: span.last - span.first + 1 };
  });
}

/** The parts of two rooms as a table. */
export function partsCsv({ first, second, both }) {
  const lines = Object.entries({ first, second, both }).flatMap(([name, part]) =>
    part.spans.map((span) => [name, span.row, span.first, span.last, span.last - span.first + 1].join(",")));
  return ["part,row,first,last,panels", ...lines, ""].join("\n");
}

/** Hands a file to the browser, which saves it under this name. */
export function saveFile(name, content, type) {
  const address = URL.createObjectURL(new Blob([content], { type }));
  const link = document.createElement("a");
  link.href = address;
  link.download = name;
  document.body.append(link);
  link.click();
  link.remove();
  setTimeout(() => URL.revokeObjectURL(address), 10000);
}
