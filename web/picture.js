// SPDX-License-Identifier: MIT
// Pictures as SVG: what the proved calls answered, drawn. Nothing is judged here. A picture is made of layers, each a list of SVG
// elements; a frame says where a corner stands in pixels.
import { cornersOf, cornerText } from "./words.js";

const SVG = "http://www.w3.org/2000/svg";

// The looks of all parts of a picture. A colour is a variable of the page, which has a light and a dark one; what stands after
// the comma is the light one, which a saved picture has.
export const PICTURE_STYLE = `
.paper { fill: var(--paper, #ffffff); }
.grid { fill: none; stroke: var(--grid, #cccccc); stroke-width: 1; }
.axis, .label { fill: var(--ink, #222222); font-family: sans-serif; }
.axis { fill: var(--soft, #555555); }
.halo { paint-order: stroke; stroke: var(--inside, #cfe8cf); stroke-width: 3; }
.inside { fill: var(--inside, #cfe8cf); stroke: var(--grid, #b5d4b5); stroke-width: 1; }
.part { stroke: none; }
.ground-first { fill: var(--first-ground, #d6e6f5); }
.ground-second { fill: var(--second-ground, #fbe7c4); }
.ground-both { fill: var(--both-ground, #c9ebdf); }
.line-first { stroke: var(--first, #0072b2); stroke-width: 2; }
.line-second { stroke: var(--second, #a86a00); stroke-width: 2; }
.line-both { fill: var(--both, #00735a); }
.walk { fill: none; stroke: var(--ink, #222222); stroke-width: 3; stroke-linejoin: round; stroke-linecap: round; }
.walk.first { stroke: var(--first, #0072b2); }
.walk.second { stroke: var(--second, #a86a00); stroke-dasharray: 9 6; }
.arrow { fill: var(--ink, #222222); }
.arrow.first { fill: var(--first, #0072b2); }
.arrow.second { fill: var(--second, #a86a00); }
.hull { fill: none; stroke: var(--hull, #3366cc); stroke-width: 1.5; stroke-dasharray: 6 4; }
.outline { fill: none; stroke: var(--outline, #b0468f); stroke-width: 8; stroke-opacity: 0.45; stroke-linejoin: round; }
.blocks { fill: none; stroke: var(--line, #8b938e); stroke-width: 2; }
.orthogonal-ground { fill: var(--around, #fbe3c0); }
.orthogonal { fill: none; stroke: var(--orthogonal, #b35c00); stroke-width: 7; stroke-dasharray: 14 6; }
.meeting { fill: none; stroke: var(--meeting, #cc2222); stroke-width: 3; }
.meeting-label { fill: var(--meeting, #cc2222); font-family: sans-serif; font-weight: bold; }
.meeting-label { paint-order: stroke; stroke: var(--paper, #ffffff); stroke-width: 4; }
.start { fill: var(--ink, #222222); }
.start.first { fill: var(--first, #0072b2); }
.start.second { fill: var(--second, #a86a00); }
.here { fill: var(--paper, #ffffff); stroke: var(--ink, #222222); stroke-width: 3; }
.next { fill: var(--paper, #ffffff); stroke: var(--soft, #555555); stroke-width: 1.5; stroke-dasharray: 3 2; }
.measure { fill: none; stroke: var(--ink, #222222); stroke-width: 1; }
`;

/** An SVG element with its attributes and children; a child that is a string is text, never markup. */
export function svg(name, attributes = {}, ...children) {
  const made = document.createElementNS(SVG, name);
  for (const [key, value] of Object.entries(attributes)) made.setAttribute(key, value);
  made.append(...children);
  return made;
}

const rounded = (number) => Math.round(number * 100) / 100;

/** The smallest box around corners, as [west, south, east, north]. */
export function boxOf(...lists) {
  let [west, south, east, north] = [Infinity, Infinity, -Infinity, -Infinity];
  for (const corners of lists) {
    for (const [x, y] of corners) {
      if (x < west) west = x;
      if (x > east) east = x;
      if (y < south) south = y;
      if (y > north) north = y;
    }
  }
  return [west, south, east, north];
}

/**
 * A frame for a box: `margin` panels more on each side and at least `least` panels, at most `width` by `height` pixels, a panel
 * no larger than `most`. `text` is the size of letters; the numbers of the axes have their room to the left and below, and `rim`
 * pixels above and to the right are for measures.
 */
export function frameOf([west, south, east, north], options) {
  const { width, height, margin, most, text, least, rim } = { margin: 1, most: 44, text: 13, least: [0, 0], rim: 0, ...options };
  const wider = Math.max(0, least[0] - (east - west)), higher = Math.max(0, least[1] - (north - south));
  const [x0, y0] = [west - margin - Math.ceil(wider / 2), south - margin - Math.ceil(higher / 2)];
  const [x1, y1] = [east + margin + Math.floor(wider / 2), north + margin + Math.floor(higher / 2)];
  const left = text * 3.2, below = text * 1.8, above = Math.max(rim, text * 0.6), right = Math.max(rim, text * 1.6);
  const side = Math.max(0.01, Math.min(most, (width - left - right) / (x1 - x0), (height - below - above) / (y1 - y0)));
  const px = (x) => rounded(left + (x - x0) * side), py = (y) => rounded(above + (y1 - y) * side);
  const size = { width: rounded(px(x1) + right), height: rounded(py(y0) + below) };
  return { x0, y0, x1, y1, side, text, px, py, left, above, rim, ...size };
}

/** The corner that a pixel of a frame is nearest to. */
function cornerAt(frame, x, y) {
  return [Math.round(frame.x0 + (x - frame.left) / frame.side), Math.round(frame.y1 - (y - frame.above) / frame.side)];
}

/** The step that a tap on a picture asks for: from a corner to one of the four next to it; or -1. */
export function stepOfTap(frame, element, event, [x, y]) {
  const box = element.getBoundingClientRect(), scale = frame.width / box.width;
  const [u, v] = cornerAt(frame, (event.clientX - box.left) * scale, (event.clientY - box.top) * scale);
  return [[1, 0], [0, 1], [-1, 0], [0, -1]].findIndex(([dx, dy]) => u - x === dx && v - y === dy);
}

/** 1, 2 or 5 times a power of ten: the least that is at least this many pixels. */
function stride(side, pixels) {
  for (let power = 1; ; power *= 10) for (const times of [1, 2, 5]) if (times * power * side >= pixels) return times * power;
}

const multiples = (from, to, by) => {
  const found = [];
  for (let at = Math.ceil(from / by) * by; at <= to; at += by) found.push(at);
  return found;
};

/** A piece of text in a picture. */
function label(look, x, y, words, attributes = {}) {
  return svg("text", { class: look, x: rounded(x), y: rounded(y), "text-anchor": "middle", ...attributes }, String(words));
}

const TO_THE_LEFT = { "text-anchor": "end" }, TO_THE_RIGHT = { "text-anchor": "start" };

/** The grid, and the numbers of the axes below it and to its left. */
export function gridLayer(frame, { numbers = true } = {}) {
  const { x0, y0, x1, y1, px, py, side, text } = frame, by = stride(side, 7);
  const lines = multiples(x0, x1, by).map((x) => `M${px(x)},${py(y0)}V${py(y1)}`);
  const across = multiples(y0, y1, by).map((y) => `M${px(x0)},${py(y)}H${px(x1)}`);
  const grid = svg("path", { class: "grid", d: [...lines, ...across].join("") });
  if (!numbers) return [grid];
  const every = stride(side, text * 2.6);
  const below = multiples(x0, x1, every).map((x) => label("axis", px(x), py(y0) + text * 1.2, x));
  const left = multiples(y0, y1, every).map((y) => label("axis", px(x0) - 5, py(y) + text * 0.35, y, TO_THE_LEFT));
  return [grid, ...below, ...left];
}

/** Spans of panels as rectangles: those that are the same in row after row are one. */
export function spansLayer(frame, spans, attributes) {
  const { px, py } = frame, open = new Map(), blocks = [];
  for (const { row, first, last } of spans) {
    const name = `${first} ${last}`, below = open.get(name);
    if (below?.to === row - 1) below.to = row;
    else {
      open.set(name, { first, last, from: row, to: row });
      blocks.push(open.get(name));
    }
  }
  return blocks.map(({ first, last, from, to }) => svg("rect", {
    x: px(first), y: py(to + 1), width: rounded(px(last + 1) - px(first)), height: rounded(py(from) - py(to + 1)), ...attributes,
  }));
}

const pointsOf = (frame, corners) => corners.map(([x, y]) => `${frame.px(x)},${frame.py(y)}`).join(" ");

const hullLayer = (frame, corners) => [svg("polygon", { class: "hull", points: pointsOf(frame, corners) })];

const outlineLayer = (frame, corners) => [svg("polyline", { class: "outline", points: pointsOf(frame, corners) })];

/** The corners of an orthogonal hull as corners of panels, the last the first. */
const hullCorners = ({ chain, start, grid }) => cornersOf(chain, start).map(([x, y]) => [x * grid, y * grid]);

const orthogonalGround = (frame, corners) => [svg("polygon", { class: "orthogonal-ground", points: pointsOf(frame, corners) })];

/** The orthogonal hull as a line, and the lines between blocks if a block is more than a panel and they are not too near. */
function orthogonalLayer(frame, corners, grid) {
  const { x0, y0, x1, y1, px, py, side } = frame, line = svg("polygon", { class: "orthogonal", points: pointsOf(frame, corners) });
  if (grid === 1 || grid * side < 7) return [line];
  const up = multiples(x0, x1, grid).map((x) => `M${px(x)},${py(y0)}V${py(y1)}`);
  const across = multiples(y0, y1, grid).map((y) => `M${px(x0)},${py(y)}H${px(x1)}`);
  return [svg("path", { class: "blocks", d: [...up, ...across].join("") }), line];
}

/** A walk with its arrows and its start. `look` is "", "first" or "second"; the start of a second walk is a square. */
export function walkLayer(frame, chain, corners, look = "") {
  const line = svg("polyline", { class: `walk ${look}`, points: pointsOf(frame, corners) });
  const arrows = svg("path", { class: `arrow ${look}`, d: arrowsOf(frame, chain, corners) });
  const [x, y] = [frame.px(corners[0][0]), frame.py(corners[0][1])];
  const start = look === "second"
    ? svg("rect", { class: `start ${look}`, x: x - 7, y: y - 7, width: 14, height: 14 })
    : svg("circle", { class: `start ${look}`, cx: x, cy: y, r: 8 });
  return chain.length > 0 ? [line, arrows, start] : [start];
}

/** Arrow heads in the middle of steps: of each, or of as many as stand 24 pixels apart. */
function arrowsOf(frame, chain, corners) {
  const every = Math.max(1, Math.ceil(24 / frame.side)), long = every > 1 ? 6 : Math.min(8, frame.side * 0.3), wide = long * 0.65;
  const heads = [];
  for (let i = Math.floor((every - 1) / 2); i < chain.length; i += every) {
    const [dx, dy] = [(chain[i] === 0) - (chain[i] === 2), (chain[i] === 3) - (chain[i] === 1)];
    const [x, y] = [frame.px(corners[i][0]) + dx * frame.side * 0.55, frame.py(corners[i][1]) + dy * frame.side * 0.55];
    const at = (along, across) => `${rounded(x + dx * along - dy * across)},${rounded(y + dy * along + dx * across)}`;
    heads.push(`M${at(long, 0)}L${at(-long, wide)}L${at(-long, -wide)}Z`);
  }
  return heads.join("");
}

/** The first meeting, ringed, with its corner and both steps. */
export function meetingLayer(frame, corner, [j, k]) {
  const [x, y] = [frame.px(corner[0]), frame.py(corner[1])], before = j === 0 ? "start" : `step ${j}`;
  const words = `${cornerText(corner)}: ${before}, step ${k}`, long = words.length * frame.text * 0.6;
  const left = Math.max(2, Math.min(x + 12, frame.width - long)); // to the right of the ring, as far as it fits
  return [svg("circle", { class: "meeting", cx: x, cy: y, r: 11 }), label("meeting-label", left, y - 13, words, TO_THE_RIGHT)];
}

/** Where the walk stands, and the four corners that a step leads to. */
export function nextLayer(frame, [x, y]) {
  const ways = [[1, 0], [0, 1], [-1, 0], [0, -1]];
  const r = Math.min(7, frame.side / 3);
  const dots = ways.map(([dx, dy]) => svg("circle", { class: "next", cx: frame.px(x + dx), cy: frame.py(y + dy), r }));
  return [...dots, svg("circle", { class: "here", cx: frame.px(x), cy: frame.py(y), r: 4.5 })];
}

/** The numbers of a room's rows from the south, 1 on, to the left of the grid; of the rows of a small picture not each. */
export function rowNumbersLayer(frame, spans) {
  const rows = [...new Set(spans.map((span) => span.row))], every = stride(frame.side, frame.text * 1.15);
  const numbered = rows.map((row, i) => [row, i + 1]).filter(([, number]) => number === 1 || number % every === 0);
  const [x, down] = [frame.px(frame.x0) - 8, frame.text * 0.35];
  return numbered.map(([row, number]) => label("axis", x, frame.py(row + 0.5) + down, number, TO_THE_LEFT));
}

/** The length of the wall from (u,v) to (x,y), on the inner side; nothing if there is no space for the number. */
function wallLabel(frame, [u, v], [x, y], turn, length) {
  const [dx, dy] = [Math.sign(x - u), Math.sign(y - v)], long = Math.abs(x - u) + Math.abs(y - v), words = length(long);
  if (long * frame.side < frame.text * 0.6 * words.length + 8 || frame.side < frame.text) return [];
  const inwards = frame.text * 0.95 * turn;
  const [cx, cy] = [frame.px((x + u) / 2) - dy * inwards, frame.py((y + v) / 2) - dx * inwards];
  const turned = dy !== 0 ? { transform: `rotate(-90 ${rounded(cx)} ${rounded(cy)})` } : {};
  return [label("label halo", cx, cy, words, { "dominant-baseline": "central", ...turned })];
}

/**
 * The walls of a room between its bends, with their lengths. `corners` are the bends in walking order, the last the first; `turn`
 * is 1 if the inside is on the left of the walls, and -1 if it is on the right.
 */
export function wallsLayer(frame, corners, turn, length) {
  const walls = svg("polygon", { class: "walk", points: pointsOf(frame, corners.slice(0, -1)) });
  return [walls, ...corners.slice(1).flatMap((corner, i) => wallLabel(frame, corners[i], corner, turn, length))];
}

/** A line with ticks at its ends and a number in its middle. */
function measure(frame, [x, y], [u, v], words) {
  const upright = x === u, tick = upright ? [5, 0] : [0, 5];
  const ticks = [[x, y], [u, v]].map(([a, b]) => `M${a - tick[0]},${b - tick[1]}L${a + tick[0]},${b + tick[1]}`);
  const [cx, cy] = [(x + u) / 2, (y + v) / 2], at = upright ? [cx + frame.text * 1.1, cy] : [cx, cy - 5];
  const turned = upright ? { transform: `rotate(90 ${at[0]} ${at[1]})` } : {};
  return [svg("path", { class: "measure", d: `M${x},${y}L${u},${v}${ticks.join("")}` }), label("label", ...at, words, turned)];
}

/** The width above and the height to the right of a box, in millimetres. */
export function measuresLayer(frame, [west, south, east, north], millimetres) {
  const above = frame.above * 0.6, right = frame.px(frame.x1) + frame.rim * 0.25;
  return [
    ...measure(frame, [frame.px(west), above], [frame.px(east), above], millimetres(east - west)),
    ...measure(frame, [right, frame.py(north)], [right, frame.py(south)], millimetres(north - south)),
  ];
}

let patterns = 0; // patterns have names in the whole page, so each has one of its own

// The marks in a square of a pattern: stripes up, stripes down, a dot.
const PATTERN_MARKS = {
  first: () => svg("path", { class: "line-first", d: "M-2,2L2,-2M0,10L10,0M8,12L12,8" }),
  second: () => svg("path", { class: "line-second", d: "M-2,8L2,12M0,0L10,10M8,-2L12,2" }),
  both: () => svg("circle", { class: "line-both", cx: 5, cy: 5, r: 2.2 }),
};

/** The panels of the parts of two rooms, each part with a colour and a pattern. */
export function partsLayer(frame, { first, second, both }) {
  return Object.entries({ first, second, both }).flatMap(([name, part]) => {
    const id = `pattern-${name}-${++patterns}`, ground = svg("rect", { class: `ground-${name}`, width: 10, height: 10 });
    const square = { id, width: 10, height: 10, patternUnits: "userSpaceOnUse" };
    const pattern = svg("pattern", square, ground, PATTERN_MARKS[name]());
    return [svg("defs", {}, pattern), ...spansLayer(frame, part.spans, { class: "part", fill: `url(#${id})` })];
  });
}

/** The picture of its layers, from the ground up, with its title. */
export function picture(frame, title, layers) {
  const { width, height, text } = frame;
  const attributes = { viewBox: `0 0 ${width} ${height}`, width, height, "font-size": text, role: "img", "aria-label": title };
  return svg("svg", attributes, svg("title", {}, title), svg("rect", { class: "paper", width, height }), ...layers.flat());
}

/** The picture of one walk. What is null is left out; `around` is the corner where the outline starts. */
export function walkPicture({ walk, start, hull, outline, around, orthogonal, spans, numbered, next, title }, options) {
  const corners = cornersOf(walk.chain, start), outer = orthogonal ? hullCorners(orthogonal) : [];
  const frame = frameOf(boxOf(corners, outer), options);
  const layers = [
    orthogonal ? orthogonalGround(frame, outer) : [],
    spans ? spansLayer(frame, spans, { class: "inside" }) : [],
    gridLayer(frame),
    orthogonal ? orthogonalLayer(frame, outer, orthogonal.grid) : [],
    hull ? hullLayer(frame, hull.corners) : [],
    outline ? outlineLayer(frame, cornersOf(outline.chain, around)) : [],
    spans && numbered ? rowCountsLayer(frame, spans) : [],
    walkLayer(frame, walk.chain, corners),
    next ? nextLayer(frame, walk.last) : [],
    walk.meeting ? meetingLayer(frame, corners[walk.meeting[0]], walk.meeting) : [],
  ];
  return { frame, element: picture(frame, title, layers) };
}

/** In each span how many panels it has, if there is space for the number. */
function rowCountsLayer(frame, spans) {
  if (frame.side < frame.text) return [];
  return spans.map(({ row, first, last }) => {
    const [x, y] = [(frame.px(first) + frame.px(last + 1)) / 2, frame.py(row + 0.5) + frame.text * 0.35];
    return label("label", x, y, last - first + 1);
  });
}

/** A picture as a file of its own: without what is there to be tapped, and with its style, each variable as its light colour. */
export function pictureFile(element) {
  const copy = element.cloneNode(true), style = PICTURE_STYLE.replace(/var\(--[a-z-]+, ([^)]+)\)/g, "$1");
  for (const one of copy.querySelectorAll(".next, .here")) one.remove();
  copy.setAttribute("xmlns", SVG);
  copy.prepend(svg("style", {}, style));
  return new XMLSerializer().serializeToString(copy) + "\n";
}
