// SPDX-License-Identifier: MIT
// The answers of the calls in words: the sentences of programs/words.c, which the check compares.

export const counted = (count, thing) => `${count} ${thing}${count === 1 ? "" : "s"}`;

export const cornerText = ([x, y]) => `(${x},${y})`;

/** The corners p0 to pn of a chain, [x, y] each. */
export function cornersOf(chain, [x, y]) {
  const corners = [[x, y]];
  for (const step of chain) {
    x += (step === 0) - (step === 2);
    y += (step === 1) - (step === 3);
    corners.push([x, y]);
  }
  return corners;
}

/** The corner of the first meeting, or null. */
export function meetingCorner(walk, start) {
  return walk.meeting && cornersOf(walk.chain.subarray(0, walk.meeting[0]), start).at(-1);
}

function crossing(walk, start) {
  const [j, k] = walk.meeting;
  const before = j === 0 ? "where the walk began" : `where step ${j} was`;
  return ` and crossed: step ${k} comes back to ${cornerText(meetingCorner(walk, start))}, ${before}`;
}

const sense = ({ area }) => (area > 0 ? "counterclockwise" : "clockwise");

/** What an accepted walk is, in a sentence. */
export function walkSentence(walk, start) {
  switch (walk.verdict) {
    case 0: return "no step survives";
    case 1: return `open: ${counted(walk.steps, "step")}, from ${cornerText(start)} to ${cornerText(walk.last)}`;
    case 2: return `a room of ${counted(walk.panels, "panel")}, ${counted(walk.steps, "step")}, ${sense(walk)}`;
    case 3: return "open" + crossing(walk, start);
    case 4: return "closed" + crossing(walk, start);
    default: return "there and back, which is not a room";
  }
}

// The sentences of refusals; # stands for the place. Those of 4 and 20 are made below.
const REFUSAL_SENTENCES = {
  1: "the input has more than 32,768 bytes",
  2: "the lent table does not have a whole number of records, or has none, or too many",
  3: "a lent buffer does not have the length that the input asks for",
  5: "the operation at place # takes a step back, and no step is left",
  6: "the step at place # would be the 16,385th that survives",
  7: "the table has too few records for the operation at place #",
  8: "the lent buffer is shorter than two numbers for each hull corner",
  9: "the line is not a record",
  10: "a coordinate of the start is beyond 16,384",
  11: "the lent buffer is shorter than the outline",
  12: "the walk is not a room",
  13: "the lent buffer is shorter than the polygon",
  14: "the file does not have 13 bytes and 16 for each point",
  15: "the file is not a polygon of one ring: its byte order, type or ring count is another",
  16: "a coordinate is not a whole multiple of 600, or is too far out",
  17: "the ring has a slant, a repeated point or fewer than four points, or is not closed",
  18: "the lent buffer is shorter than the chain",
  19: "the record has turns, which are retired; convert changes them to steps",
  21: "a lent buffer is shorter than three numbers for each span",
  22: "the grid size is not a number from 1 to 16,384",
};

/**
 * Why a call was refused, in a sentence. `fault` names what stands at the place, "byte 5" or "'x'"; `most` is the greatest digit
 * that the call takes there.
 */
export function refusalSentence({ number, place }, fault = "the byte", most = 3) {
  if (number === 4) return `${fault} at place ${place} is not a digit from 0 to ${most}`;
  if (number === 20) return `${fault} at place ${place} is of neither party`;
  return (REFUSAL_SENTENCES[number] ?? `refusal ${number}`).replace("#", place);
}

export const byteFault = (byte) => `byte ${byte}`;

/** What the first character of a text is, for the sentence of a refusal: a digit by its number, another in quotes. */
export function textFault(text) {
  if (text === "") return "the byte";
  const character = String.fromCodePoint(text.codePointAt(0)), code = character.codePointAt(0);
  if (character >= "0" && character <= "9") return byteFault(Number(character));
  const named = { "\\": "\\\\", "\t": "\\t", "\r": "\\r", "\n": "\\n" }[character];
  const hidden = code < 0x20 || (code >= 0x7f && code < 0xa0);
  const shown = named ?? (hidden ? "\\x" + code.toString(16).padStart(2, "0") : character);
  return character === "'" ? `"'"` : `'${shown}'`;
}

/** How many panels each part of two rooms has. */
export function overlaySentence({ first, second, both }) {
  const part = (one, where) => `${counted(one.panels, "panel")} in ${where}`;
  return `${part(first, "the first only")}, ${part(second, "the second only")}, ${part(both, "both")}`;
}

/** How large an orthogonal hull is: in panels, or in blocks of more than one. */
export function orthogonalSentence({ blocks, count, grid }) {
  const size = grid === 1 ? counted(blocks, "panel") : `${counted(blocks, "block")} of ${grid} by ${grid} panels`;
  return `an orthogonal hull of ${size}, ${counted(count, "step")}`;
}

export const convexWord = (convex) => (convex ? "convex" : "not convex");

/** What a step or a take-back is called. */
export const OPERATION_NAMES = ["east", "north", "west", "south", "back"];
