// SPDX-License-Identifier: MIT
// The proved judge of a surveyor's walk, for pages and for Node: the binding over dist/wasm/undrwyth32.wasm.
//
//     import { loadUndrwyth } from "./undrwyth.js";
//     const judge = await loadUndrwyth(bytes);              // the bytes of undrwyth32.wasm
//     const walk = judge.walk("001100322223");
//     if (walk.refusal) console.log(walk.refusal.name, walk.refusal.place);
//     else console.log(walk.verdict, walk.meeting);         // 4, [3, 9]
//
// Each call of include/undrwyth.h is a method. Operations, steps and turns are a string of digits or a Uint8Array of bytes; a
// character that is not a digit becomes byte 255, which every call refuses. A start is a pair of whole numbers, [x, y].
//
// A method answers an object whose `refusal` is null, or one that has nothing but its `refusal`: number, name and place. What is
// not even an argument (a start that is not two whole numbers, something else than a string or bytes) throws a TypeError.
//
// The binding lends every buffer itself: after the module's own memory, one after the other and apart, and as long as the header
// says is always enough. So refusals 2, 3, 8, 11, 13, 18 and 21 do not come, and 7 only if `records` asks for a small table.
// What is answered is a copy: a later call does not change it.

export const MOST_INPUT_BYTES = 32768;
export const MOST_STEPS = 16384;
export const MOST_START = 16384;
export const MOST_GRID = 16384;
export const MOST_RECORDS = 131148;
export const MOST_PAIR_RECORDS = 262296;
export const MOST_LINE_DIGITS = 1024;
export const LINE_RECORDS = 320;
export const RECORD_WORDS = 25;
export const PAIR_RECORD_WORDS = 36;
export const LINE_BYTES = 8240;
export const PANEL_MILLIMETRES = 600;

const MARK_WORDS = 3;
const CORNER_NUMBERS = 2;
const SPAN_NUMBERS = 3;
const POLYGON_HEADER_BYTES = 13;
const POINT_BYTES = 16;
const NO_MEETING = 65535;

/** Verdicts by their numbers: `VERDICTS[2]` is "room". */
export const VERDICTS = ["nowhere", "open", "room", "open_meeting", "closed_meeting", "there_and_back"];
export const ROOM = 2;

/** Refusals by their numbers; 0 is none. */
export const REFUSALS = [
  "accepted", "too_many", "table", "result_room", "bad_digit", "nothing_to_take", "too_long", "no_room", "hull_room",
  "bad_line", "start_range", "outline_room", "not_room", "polygon_room", "file_length", "file_kind", "bad_coordinate", "bad_ring",
  "chain_room", "retired_kind", "unknown_party", "span_room", "grid_size",
];

/** The answer that is a refusal, and nothing else. */
export function refused(number, place) {
  return { refusal: { number, name: REFUSALS[number], place } };
}

/** The bytes of digits: bytes as they are, of a string each character's digit, or 255. */
export function bytesOfDigits(given) {
  if (given instanceof Uint8Array) return given;
  if (typeof given !== "string") throw new TypeError("digits are a string or a Uint8Array");
  const bytes = new Uint8Array(given.length);
  for (let i = 0; i < given.length; i++) {
    const digit = given.charCodeAt(i) - 48;
    bytes[i] = digit >= 0 && digit <= 9 ? digit : 255;
  }
  return bytes;
}

/** The bytes of a line of text; a character beyond ASCII becomes a question mark, which is in no record. */
function bytesOfLine(given) {
  if (given instanceof Uint8Array) return given;
  if (typeof given !== "string") throw new TypeError("a line is a string or a Uint8Array");
  return Uint8Array.from(given, (character) => (character.codePointAt(0) < 128 ? character.codePointAt(0) : 63));
}

/** A start, each coordinate brought into 32 bits: what is farther out is refused all the same. */
function numbersOfStart(start) {
  const isPair = Array.isArray(start) && start.length === 2 && start.every(Number.isInteger);
  if (!isPair) throw new TypeError("a start is [x, y], two whole numbers");
  return start.map((number) => Math.max(-(2 ** 31), Math.min(number, 2 ** 31 - 1)));
}

/** A grid size, brought into 32 bits: what is farther out is refused all the same. */
function numberOfGrid(grid) {
  if (!Number.isInteger(grid)) throw new TypeError("a grid size is a whole number");
  return Math.max(0, Math.min(grid, 2 ** 32 - 1));
}

/** How many records to lend: what was asked for, or what is always enough. */
function recordsAsked(asked, enough, most) {
  if (asked === undefined) return Math.min(enough, most);
  if (!Number.isInteger(asked) || asked < 1 || asked > most) throw new TypeError(`records is a whole number from 1 to ${most}`);
  return asked;
}

// The arguments of a call: a number as it is, or one of these.
const input = (bytes) => ({ bytes, length: bytes.length, size: 1 });
const lentBytes = (length) => ({ length, size: 1 });
const lentWords = (length) => ({ length, size: 4 });

/** What is said of a walk, or of one of two, by eight words of an answer. */
function facts(words, chain) {
  const [verdict, steps, corners, j, k, area, x, y] = words;
  const meeting = k === NO_MEETING ? null : [j, k];
  return { verdict, steps, corners, meeting, area, panels: Math.abs(area), last: [x, y], chain };
}

/** Numbers in groups: pairs of a hull, triples of spans. */
function grouped(numbers, size) {
  const groups = [];
  for (let at = 0; at < numbers.length; at += size) groups.push(Array.from(numbers.subarray(at, at + size)));
  return groups;
}

const spansOf = (numbers) => grouped(numbers, SPAN_NUMBERS).map(([row, first, last]) => ({ row, first, last }));

const marksOf = (numbers) => grouped(numbers, MARK_WORDS).map(([nodes, visits, changed]) => ({ nodes, visits, changed }));

const textOf = (bytes) => Array.from(bytes, (byte) => String.fromCharCode(byte)).join("");

const digitsOf = (steps) => Array.from(steps, String).join("");

const signed = (digits) => {
  const number = parseInt(digits, 16), most = 16 ** digits.length;
  return 2 * number >= most ? number - most : number;
};

/** Makes a judge of the bytes of the module with 32-bit memory. */
export async function loadUndrwyth(bytes) {
  const { instance } = await WebAssembly.instantiate(bytes, {});
  return new Undrwyth(instance.exports);
}

/** The calls. One judge serves a whole page: a call keeps nothing. */
export class Undrwyth {
  #calls;
  #own; // bytes of memory that the module has for itself: stack and data

  constructor(calls) {
    this.#calls = calls;
    this.#own = calls.memory.buffer.byteLength;
  }

  /** Places for buffers of these lengths: multiples of 16, with 16 bytes or more between two. The memory grows for them. */
  #places(lengths) {
    let at = this.#own + 16;
    const places = lengths.map((length) => {
      const place = at;
      at += 16 * Math.ceil(length / 16 + 1);
      return place;
    });
    const missing = at - this.#calls.memory.buffer.byteLength;
    if (missing > 0) this.#calls.memory.grow(Math.ceil(missing / 65536));
    return places;
  }

  /**
   * Makes a call. Its arguments are numbers and buffers; a buffer is passed as its place and its length. The answer has the
   * result, the words of the answer (signed), and `take(i, n)`: a copy of the first n elements of the i-th lent buffer.
   */
  #ask(name, args, answerWords = 0) {
    const buffers = args.filter((one) => typeof one === "object");
    const places = this.#places([...buffers.map((one) => one.length * one.size), answerWords * 4]);
    const memory = this.#calls.memory.buffer, answerAt = places.at(-1);
    buffers.forEach((one, i) => { if (one.bytes) new Uint8Array(memory, places[i], one.length).set(one.bytes); });
    let next = 0;
    const words = args.flatMap((one) => (typeof one === "object" ? [places[next++], BigInt(one.length)] : [one]));
    if (answerWords > 0) words.push(answerAt);
    const result = Number(this.#calls["undrwyth_" + name](...words));
    const lent = buffers.map((one, i) => ({ ...one, at: places[i] })).filter((one) => !one.bytes);
    const take = (i, n) => {
      const Kind = lent[i].size === 1 ? Uint8Array : Int32Array;
      return new Kind(memory, lent[i].at, n).slice();
    };
    return { result, words: Array.from(new Int32Array(memory, answerAt, answerWords)), take };
  }

  /**
   * Judges the walk of the operations from the start: verdict, steps, nodes, corners, meeting ([j, k] or null), area (signed),
   * panels, last ([x, y]), chain (the surviving steps), marks (for each operation nodes, visits, changed), and table: the words
   * of the records in use, 25 each. `records` is the number of records to lend; if `table` or `marks` is false, it is not copied
   * and is null.
   */
  walk(ops, start = [0, 0], { records, table = true, marks = true } = {}) {
    const bytes = bytesOfDigits(ops), n = Math.min(bytes.length, MOST_INPUT_BYTES), origin = numbersOfStart(start);
    // 4 c + 64 records are enough for c different corners, from (0,0) 4 c - 3; a walk has at most one more than it has steps
    const enough = 4 * (Math.min(n, MOST_STEPS) + 1) + (origin[0] || origin[1] ? 64 : -3);
    const lent = [lentWords(RECORD_WORDS * recordsAsked(records, enough, MOST_RECORDS)), lentWords(MARK_WORDS * n), lentBytes(n)];
    const { words, take } = this.#ask("walk", [...origin, input(bytes), ...lent], 11);
    const [number, place, verdict, steps, nodes, ...rest] = words;
    if (number !== 0) return refused(number, place);
    const said = facts([verdict, steps, ...rest], take(2, steps));
    return {
      refusal: null, ...said, nodes, marks: marks ? marksOf(take(1, MARK_WORDS * n)) : null,
      table: table ? new Uint32Array(take(0, RECORD_WORDS * nodes).buffer) : null,
    };
  }

  /**
   * Judges the walks of two parties in one table. A byte is 16 times the party plus an operation; a string has two hexadecimal
   * digits a byte, and may have spaces. The answer has nodes, parties (two answers as of a walk, without nodes), marks, and
   * table: all words that were lent, 36 a record.
   */
  walkTwo(ops, start0 = [0, 0], start1 = [0, 0], { records, table = true, marks = true } = {}) {
    const bytes = typeof ops === "string" ? bytesOfHex(ops) : bytesOfDigits(ops);
    if (bytes === null) throw new TypeError("a string for two parties has two hexadecimal digits a byte");
    const n = Math.min(bytes.length, MOST_INPUT_BYTES), starts = [...numbersOfStart(start0), ...numbersOfStart(start1)];
    const tableWords = PAIR_RECORD_WORDS * recordsAsked(records, 4 * n + 136, MOST_PAIR_RECORDS);
    const lent = [lentWords(tableWords), lentWords(MARK_WORDS * n), lentBytes(n), lentBytes(n)];
    const { words, take } = this.#ask("walk_two", [...starts, input(bytes), ...lent], 19);
    if (words[0] !== 0) return refused(words[0], words[1]);
    const parties = [0, 1].map((q) => facts(words.slice(3 + 8 * q, 11 + 8 * q), take(2 + q, words[4 + 8 * q])));
    return {
      refusal: null, nodes: words[2], parties, marks: marks ? marksOf(take(1, MARK_WORDS * n)) : null,
      table: table ? new Uint32Array(take(0, tableWords).buffer) : null,
    };
  }

  /** A call on a start and a chain that writes one list: its count and what was written. */
  #list(name, chain, start, lent, perItem) {
    const { words, take } = this.#ask(name, [...numbersOfStart(start), input(chain), lent], 3);
    if (words[0] !== 0) return refused(words[0], words[1]);
    return { refusal: null, count: words[2], written: take(0, perItem * words[2]) };
  }

  /** The corners of the convex hull, [x, y] each, counterclockwise from the lowest of the leftmost. */
  hull(chain, start = [0, 0]) {
    const bytes = bytesOfDigits(chain), room = lentWords(CORNER_NUMBERS * (Math.min(bytes.length, MOST_STEPS) + 1));
    const answer = this.#list("hull", bytes, start, room, CORNER_NUMBERS);
    return answer.refusal ? answer : { refusal: null, count: answer.count, corners: grouped(answer.written, CORNER_NUMBERS) };
  }

  /** The outer outline of a walk as steps, from the lowest of its leftmost corners. */
  outline(chain, start = [0, 0]) {
    const bytes = bytesOfDigits(chain);
    const answer = this.#list("outline", bytes, start, lentBytes(2 * Math.min(bytes.length, MOST_STEPS)), 1);
    if (answer.refusal) return answer;
    return { refusal: null, count: answer.count, chain: answer.written, digits: digitsOf(answer.written) };
  }

  /** A room as a polygon in Well-Known Binary, in millimetres. */
  polygonOfRoom(chain, start = [0, 0]) {
    const bytes = bytesOfDigits(chain), points = Math.min(bytes.length, MOST_STEPS) + 1;
    const answer = this.#list("polygon_of_room", bytes, start, lentBytes(POLYGON_HEADER_BYTES + POINT_BYTES * points), 1);
    return answer.refusal ? answer : { refusal: null, count: answer.count, wkb: answer.written };
  }

  /** The panels of a room by rows: spans with row, first and last. */
  rows(chain, start = [0, 0]) {
    const bytes = bytesOfDigits(chain), room = lentWords(Math.floor((SPAN_NUMBERS * Math.min(bytes.length, MOST_STEPS)) / 2));
    const answer = this.#list("rows", bytes, start, room, SPAN_NUMBERS);
    return answer.refusal ? answer : { refusal: null, count: answer.count, spans: spansOf(answer.written) };
  }

  /** Two rooms laid over each other: what is in the first only, in the second only, and in both, each panels and spans. */
  overlay(chain1, chain2, start1 = [0, 0], start2 = [0, 0]) {
    const bytes1 = bytesOfDigits(chain1), bytes2 = bytesOfDigits(chain2);
    const most = Math.floor((SPAN_NUMBERS * (Math.min(bytes1.length, MOST_STEPS) + Math.min(bytes2.length, MOST_STEPS))) / 2);
    const rooms = [...numbersOfStart(start1), input(bytes1), ...numbersOfStart(start2), input(bytes2)];
    const { words, take } = this.#ask("overlay", [...rooms, lentWords(most), lentWords(most), lentWords(most)], 8);
    if (words[0] !== 0) return refused(words[0], words[1]);
    const part = (i) => ({ panels: words[2 + i], spans: spansOf(take(i, SPAN_NUMBERS * words[5 + i])) });
    return { refusal: null, first: part(0), second: part(1), both: part(2) };
  }

  /** Whether a room is convex. */
  convex(chain, start = [0, 0]) {
    const { words } = this.#ask("convex", [...numbersOfStart(start), input(bytesOfDigits(chain))], 3);
    return words[0] !== 0 ? refused(words[0], words[1]) : { refusal: null, convex: words[2] === 1 };
  }

  /**
   * The outline of the orthogonal hull of a room as steps, in blocks of `grid` by `grid` panels, from the lowest of its leftmost
   * corners; that corner in blocks, start ([x, y]); and how many blocks are inside. It never has more steps than the chain.
   */
  orthogonalHull(chain, start = [0, 0], grid = 1) {
    const bytes = bytesOfDigits(chain), lent = lentBytes(Math.min(bytes.length, MOST_STEPS)), size = numberOfGrid(grid);
    const { words, take } = this.#ask("orthogonal_hull", [...numbersOfStart(start), input(bytes), size, lent], 6);
    if (words[0] !== 0) return refused(words[0], words[1]);
    const steps = take(0, words[2]);
    return {
      refusal: null, count: words[2], chain: steps, digits: digitsOf(steps), start: [words[3], words[4]], blocks: words[5], grid: size,
    };
  }

  /** Reads a polygon in Well-Known Binary: the start and the chain along its ring. */
  chainOfPolygon(file) {
    if (!(file instanceof Uint8Array)) throw new TypeError("a file is a Uint8Array");
    const { words, take } = this.#ask("chain_of_polygon", [input(file), lentBytes(MOST_STEPS)], 5);
    if (words[0] !== 0) return refused(words[0], words[1]);
    const chain = take(0, words[2]);
    return { refusal: null, steps: words[2], start: [words[3], words[4]], chain, digits: digitsOf(chain) };
  }

  /** Steps to turns, or back. */
  #turned(name, given) {
    const bytes = bytesOfDigits(given);
    const { words, take } = this.#ask(name, [input(bytes), lentBytes(Math.min(bytes.length, MOST_INPUT_BYTES))], 2);
    if (words[0] !== 0) return refused(words[0], words[1]);
    const chain = take(0, bytes.length);
    return { refusal: null, chain, digits: digitsOf(chain) };
  }

  turnsOfSteps(steps) {
    return this.#turned("turns_of_steps", steps);
  }

  stepsOfTurns(turns) {
    return this.#turned("steps_of_turns", turns);
  }

  /** The answer to a record, as the line program gives it: its text, and the facts that are read from it. */
  line(record) {
    const { result, take } = this.#ask("line", [input(bytesOfLine(record)), lentBytes(LINE_BYTES)]);
    const text = textOf(take(0, result)), field = (from, to) => parseInt(text.slice(from, to), 16);
    if (text[0] === "8" || text[0] === "9") return { ...refused(field(0, 2) - 128, field(2, 10)), text };
    const [j, k] = [field(18, 22), field(22, 26)], area = signed(text.slice(26, 34));
    const numbers = Int32Array.from(text.slice(38).match(/..../g) ?? [], signed);
    return {
      refusal: null, text, verdict: field(0, 2), steps: field(2, 6), nodes: field(6, 14), corners: field(14, 18),
      meeting: k === NO_MEETING ? null : [j, k], area, panels: Math.abs(area), hull: grouped(numbers, CORNER_NUMBERS),
    };
  }

  /** A record with turns as a record with steps; any other line as it is. */
  convertLine(record) {
    const bytes = bytesOfLine(record);
    const { result, take } = this.#ask("convert_line", [input(bytes), lentBytes(bytes.length)]);
    return textOf(take(0, result));
  }
}

/** The bytes that hexadecimal digits of either case spell, spaces between them left out; null if they spell none. */
export function bytesOfHex(text) {
  const digits = text.replace(/\s+/g, "");
  if (digits.length % 2 !== 0 || !/^[0-9a-f]*$/i.test(digits)) return null;
  const bytes = new Uint8Array(digits.length / 2);
  for (let i = 0; i < bytes.length; i++) bytes[i] = parseInt(digits.slice(2 * i, 2 * i + 2), 16);
  return bytes;
}
