// SPDX-License-Identifier: MIT
// Lines of text as walks, and back. A line is RECORD, KEY,RECORD, X,Y,RECORD or KEY,X,Y,RECORD, as for `undrwyth explain`; a
// record is a frame or bare digits.
import { MOST_INPUT_BYTES, MOST_LINE_DIGITS, bytesOfDigits, refused } from "./undrwyth.js";
import { byteFault, refusalSentence, textFault } from "./words.js";

const HEAD = 6; // digits of a frame before its operations
const FRAME_HEAD = /^0[01][0-9a-fA-F]{4}/;
const NUMBER = /^-?[0-9]+$/;

/** What a record is: "frame", "digits", or "none" for what was meant as a frame, since its count has a letter. */
function kindOf(text) {
  if (!FRAME_HEAD.test(text)) return text === "" ? "none" : "digits";
  const count = text.slice(2, HEAD), number = /[A-F]/.test(count) ? Infinity : parseInt(count, 16);
  const whole = number <= MOST_LINE_DIGITS && number === text.length - HEAD && /^[0-9a-f]*$/.test(text.slice(HEAD));
  return whole ? "frame" : /[a-f]/i.test(count) ? "none" : "digits";
}

/** A whole number, brought just beyond the range of the calls if it is farther out. */
const coordinate = (text) => Math.max(-999999, Math.min(Number(text), 999999)) || 0;

/** A line without what programs leave at its ends: a carriage return, and a byte order mark. */
const cleaned = (line) => line.replace(/^\ufeff/, "").replace(/\r$/, "");

/**
 * Key and start of a line, and its record with its place in the line. If the start is not two whole numbers it is null, and
 * `odd` is the place of the field that is not one.
 */
function split(line) {
  const fields = line.split(","), record = fields.pop(), at = line.length - record.length;
  if (fields.length < 2) return { key: fields[0] ?? "", start: [0, 0], record, at };
  const [x, y] = fields.splice(-2), key = fields.join(",");
  if (NUMBER.test(x) && NUMBER.test(y)) return { key, start: [x, y].map(coordinate), record, at };
  return { key, start: null, record, at, odd: NUMBER.test(x) ? at - y.length - 1 : at - y.length - x.length - 2 };
}

/**
 * What a line says: its key ("" if it has none), its start, its operations as bytes and as text, and where in the line they
 * begin. If it cannot be a record, `refusal` and `sentence` say why, and `fault` is the place of the faulty character, or -1.
 */
function readLine(given) {
  const line = cleaned(given), { key, start, record, at, odd } = split(line);
  const said = { line, key: key.replace(/^"(.*)"$/, "$1"), start: start ?? [0, 0], at };
  const refuse = (number, fault = -1, more = "") => {
    const { refusal } = refused(number, 0);
    return { ...said, refusal, fault, sentence: refusalSentence(refusal) + more };
  };
  if (start === null) return refuse(9, odd, ": its start is not two whole numbers");
  if (record.length > MOST_INPUT_BYTES) return refuse(1);
  const kind = kindOf(record), capital = record.search(/[A-F]/);
  if (kind === "none") return refuse(9, capital < 0 ? -1 : at + capital);
  if (kind === "digits") return { ...said, refusal: null, ops: record, bytes: bytesOfDigits(record), framed: false };
  if (record[1] === "1") return refuse(19, at + 1);
  const ops = record.slice(HEAD), bytes = Uint8Array.from(ops, (digit) => parseInt(digit, 16));
  return { ...said, refusal: null, ops, bytes, framed: true, at: at + HEAD };
}

/**
 * A line judged: what it says, its walk (null if it is refused), a sentence for its refusal, and the place of the faulty
 * character in the line, or -1.
 */
export function judgeLine(judge, given, options) {
  const said = readLine(given);
  if (said.refusal) return { ...said, walk: null };
  const walk = judge.walk(said.bytes, said.start, options);
  if (!walk.refusal) return { ...said, walk, sentence: null, fault: -1 };
  const { number, place } = walk.refusal, placed = number >= 4 && number <= 7;
  const what = said.framed ? byteFault(said.bytes[place]) : textFault(said.ops.slice(place));
  const sentence = refusalSentence(walk.refusal, what, 4);
  return { ...said, walk: null, refusal: walk.refusal, sentence, fault: placed ? said.at + place : -1 };
}

/** The record of operations, given as digits: a frame if there are at most 1,024, and bare digits if there are more. */
export function recordOf(ops) {
  return ops.length > MOST_LINE_DIGITS ? ops : "00" + ops.length.toString(16).padStart(4, "0") + ops;
}

/** What stands in an address after the page's name, for a line. */
export const fragmentOf = (line) => "#" + encodeURIComponent(line).replace(/%2C/g, ",");

/** The record with its start before it, unless that is (0,0): what a link holds. */
export const lineOf = (ops, [x, y]) => (x === 0 && y === 0 ? "" : `${x},${y},`) + recordOf(ops);
