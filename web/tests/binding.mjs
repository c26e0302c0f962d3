// SPDX-License-Identifier: MIT
// Compares web/undrwyth.js with the native library on the calls that `cases` of rust/compare writes, which .ci/wasm.mjs reads.
// The binding chooses the lengths of its buffers. So a call that the native library refused for a buffer's length is made all the
// same, and must not be refused for that reason; every other one has the native answer, in every word.
import { readFileSync } from "node:fs";
import { loadUndrwyth } from "../undrwyth.js";

const root = new URL("../../", import.meta.url).pathname;
const judge = await loadUndrwyth(readFileSync(root + "dist/wasm/undrwyth32.wasm"));
const OF_BUFFERS = [2, 3, 8, 11, 13, 18, 21]; // refusals that speak of a lent buffer; 7 too, unless as many records are lent

const numbers = (buffer) => new Int32Array(Uint8Array.from(buffer).buffer);

/** A call as .ci/wasm.mjs reads it, sorted: its numbers, its inputs, the lengths of its lent buffers, the words of its answer. */
function sorted(name, args, result, after) {
  const of = (letter) => args.filter((one) => one[0] === letter);
  const answered = of("a").length > 0;
  return {
    name, result, given: of("n").map(([, number]) => number), inputs: of("i").map(([, bytes]) => Uint8Array.from(bytes)),
    before: of("l").map(([, bytes, size]) => bytes.length / size), after, words: answered ? numbers(after.at(-1)) : null,
  };
}

const flat = (items, ...names) => items.flatMap((item) => names.map((name) => item[name]));
const spans = (part) => flat(part.spans, "row", "first", "last");
const marks = (answer) => flat(answer.marks, "nodes", "visits", "changed");
const said = (one) => [one.verdict, one.steps, one.corners, ...(one.meeting ?? [65535, 65535]), one.area, ...one.last];

/** How the binding makes a call, and what of its answer is compared: pairs of ours and native. */
const CALLS = {
  walk: ({ given, inputs: [ops], before, after, words }) => {
    const records = before[0] / 25, whole = Number.isInteger(records) && records >= 1 && records <= 131148;
    const answer = judge.walk(ops, given, whole ? { records } : {});
    if (answer.refusal) return { answer };
    const { nodes, table, chain } = answer, [verdict, steps, ...rest] = said(answer);
    return { answer, pairs: () => [
      [[0, 0, verdict, steps, nodes, ...rest], words], [table, numbers(after[0]).subarray(0, 25 * nodes)],
      [marks(answer), numbers(after[1])], [chain, after[2].subarray(0, steps)],
    ] };
  },
  walk_two: ({ given, inputs: [ops], before, after, words }) => {
    const records = before[0] / 36, whole = Number.isInteger(records) && records >= 1 && records <= 262296;
    const answer = judge.walkTwo(ops, given.slice(0, 2), given.slice(2), whole ? { records } : {});
    if (answer.refusal) return { answer };
    return { answer, pairs: () => [
      [[0, 0, answer.nodes, ...answer.parties.flatMap(said)], words], [answer.table, numbers(after[0])],
      [marks(answer), numbers(after[1])],
      ...answer.parties.map((party, q) => [party.chain, after[2 + q].subarray(0, party.steps)]),
    ] };
  },
  hull: ({ given, inputs: [chain], after, words }) => {
    const answer = judge.hull(chain, given), native = () => numbers(after[0]).subarray(0, 2 * answer.count);
    return { answer, pairs: () => [[[0, 0, answer.count], words], [answer.corners.flat(), native()]] };
  },
  outline: ({ given, inputs: [chain], after, words }) => {
    const answer = judge.outline(chain, given);
    return { answer, pairs: () => [[[0, 0, answer.count], words], [answer.chain, after[0].subarray(0, answer.count)]] };
  },
  polygon_of_room: ({ given, inputs: [chain], after, words }) => {
    const answer = judge.polygonOfRoom(chain, given);
    return { answer, pairs: () => [[[0, 0, answer.count], words], [answer.wkb, after[0].subarray(0, answer.count)]] };
  },
  rows: ({ given, inputs: [chain], after, words }) => {
    const answer = judge.rows(chain, given), native = () => numbers(after[0]).subarray(0, 3 * answer.count);
    return { answer, pairs: () => [[[0, 0, answer.count], words], [spans(answer), native()]] };
  },
  convex: ({ given, inputs: [chain], words }) => {
    const answer = judge.convex(chain, given);
    return { answer, pairs: () => [[[0, 0, Number(answer.convex)], words]] };
  },
  orthogonal_hull: ({ given: [x, y, grid], inputs: [chain], after, words }) => {
    const answer = judge.orthogonalHull(chain, [x, y], grid >>> 0), native = () => after[0].subarray(0, answer.count);
    return { answer, pairs: () => [[[0, 0, answer.count, ...answer.start, answer.blocks], words], [answer.chain, native()]] };
  },
  overlay: ({ given, inputs: [one, other], after, words }) => {
    const answer = judge.overlay(one, other, given.slice(0, 2), given.slice(2));
    const parts = () => [answer.first, answer.second, answer.both];
    return { answer, pairs: () => [
      [[0, 0, ...parts().map((part) => part.panels), ...parts().map((part) => part.spans.length)], words],
      ...parts().map((part, i) => [spans(part), numbers(after[i]).subarray(0, 3 * part.spans.length)]),
    ] };
  },
  chain_of_polygon: ({ inputs: [file], after, words }) => {
    const answer = judge.chainOfPolygon(file), native = () => after[0].subarray(0, answer.steps);
    return { answer, pairs: () => [[[0, 0, answer.steps, ...answer.start], words], [answer.chain, native()]] };
  },
  turns_of_steps: ({ inputs: [steps], after }) => {
    const answer = judge.turnsOfSteps(steps);
    return { answer, pairs: () => [[answer.chain, after[0]]] };
  },
  steps_of_turns: ({ inputs: [turns], after }) => {
    const answer = judge.stepsOfTurns(turns);
    return { answer, pairs: () => [[answer.chain, after[0]]] };
  },
  line: ({ inputs: [line], after, result: length }) => {
    const result = Number(length);
    const text = Buffer.from(judge.line(line).text);
    return { answer: { refusal: null }, short: result === 0, pairs: () => [[text, after[0].subarray(0, result)]] };
  },
  convert_line: ({ inputs: [line], after, result: length, before }) => {
    const result = Number(length);
    const text = Buffer.from(judge.convertLine(line), "latin1"), short = before[0] < line.length;
    return { answer: { refusal: null }, short, pairs: () => [[text, after[0].subarray(0, result)]] };
  },
};

const same = (ours, native) => ours.length === native.length && ours.every((value, i) => value === native[i]);
const counts = { compared: 0, words: 0, refused: 0, lengths: 0 }, names = new Set();

/** Makes one call with the binding, and compares. */
export function compareBinding(...read) {
  const call = sorted(...read), { answer, short, pairs } = CALLS[call.name](call);
  const fail = (what) => { throw new Error(`web/undrwyth.js: ${call.name}: ${what}`); };
  names.add(call.name);
  const native = call.words?.[0] ?? 0, ours = answer.refusal?.number ?? 0;
  if (OF_BUFFERS.includes(ours)) fail(`refused with ${ours}, which speaks of a buffer`);
  if (short || OF_BUFFERS.includes(native)) return counts.lengths++;
  if (ours !== native) fail(`refusal ${ours}, native has ${native}`);
  if (native !== 0) {
    if (answer.refusal.place !== call.words[1]) fail(`place ${answer.refusal.place}, native has ${call.words[1]}`);
    return counts.refused++;
  }
  for (const [mine, theirs] of pairs()) {
    if (!same(mine, theirs)) fail(`${mine.slice(0, 12)}.., native has ${theirs.slice(0, 12)}..`);
    counts.words += theirs.length;
  }
  counts.compared++;
}

/** What was compared, in a sentence; every call has been asked. */
export function boundCalls() {
  if (names.size !== Object.keys(CALLS).length) throw new Error(`only ${[...names]} were asked of web/undrwyth.js`);
  const { compared, words, refused, lengths } = counts;
  return `web/undrwyth.js: ${compared} answers of ${names.size} functions with ${words} numbers, and ${refused} refusals, as `
    + `native; ${lengths} calls were about the length of a buffer, which it chooses itself`;
}
