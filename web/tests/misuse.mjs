// SPDX-License-Identifier: MIT
// The binding beside the header: its numbers and names; what it does if a caller is wrong; that its answers are copies; and some
// worked walks of docs/RULES.md.
import { readFileSync } from "node:fs";
import * as undrwyth from "../undrwyth.js";

const { LINE_RECORDS, MOST_INPUT_BYTES, MOST_STEPS, REFUSALS, VERDICTS, loadUndrwyth } = undrwyth;

const judge = await loadUndrwyth(readFileSync(new URL("../../dist/wasm/undrwyth32.wasm", import.meta.url)));
let checks = 0;

function same(what, found, expected) {
  const [ours, theirs] = [JSON.stringify(found), JSON.stringify(expected)];
  if (ours !== theirs) throw new Error(`${what}: ${ours}, not ${theirs}`);
  checks++;
}

function throws(what, call) {
  let thrown = null;
  try {
    call();
  } catch (why) {
    thrown = why;
  }
  same(`${what} is a TypeError`, thrown instanceof TypeError, true);
}

// the header's numbers
const header = readFileSync(new URL("../../include/undrwyth.h", import.meta.url), "utf8");
const lines = [...header.matchAll(/^#define UNDRWYTH_(\w+) (\d+)/gm)];
const defined = Object.fromEntries(lines.map(([, name, number]) => [name, Number(number)]));
for (const name of Object.keys(undrwyth).filter((name) => name in defined)) same(name, undrwyth[name], defined[name]);
const named = (kind) => Object.keys(defined).filter((name) => name.startsWith(kind))
  .map((name) => [defined[name], name.slice(kind.length).toLowerCase()]);
for (const [number, name] of named("REFUSAL_")) same(`refusal ${number}`, REFUSALS[number], name);
for (const [number, name] of named("VERDICT_")) same(`verdict ${number}`, VERDICTS[number], name);
same("refusals and verdicts", [named("REFUSAL_").length, named("VERDICT_").length], [REFUSALS.length - 1, VERDICTS.length]);

// what is not an argument
for (const ops of [undefined, null, 17, [0, 1], new Uint16Array(2), {}]) throws("no digits", () => judge.walk(ops));
for (const start of [null, 5, [1], [1, 2, 3], ["1", "2"], [0.5, 0], [NaN, 0], [Infinity, 0]])
  throws("no start", () => judge.walk("0", start));
for (const records of [0, -1, 1.5, NaN, "9", 131149]) throws("no number of records", () => judge.walk("0", [0, 0], { records }));
for (const grid of [null, "2", 1.5, NaN, Infinity]) throws("no grid size", () => judge.orthogonalHull("0123", [0, 0], grid));
throws("an odd number of hexadecimal digits", () => judge.walkTwo("001"));
throws("a file that is a string", () => judge.chainOfPolygon("01"));

// starts far out are refused, not cut to 32 bits
for (const far of [2 ** 31, 2 ** 32, -(2 ** 40), 16385]) same(`start ${far}`, judge.walk("0123", [far, 0]).refusal?.number, 10);

for (const grid of [0, -1, 16385, 2 ** 32 + 1, -(2 ** 40)])
  same(`grid size ${grid}`, judge.orthogonalHull("0123", [0, 0], grid).refusal, { number: 22, name: "grid_size", place: 0 });

// a place is where the first faulty character stands
same("a letter", judge.walk("01a").refusal, { number: 4, name: "bad_digit", place: 2 });
same("too many", judge.walk("04".repeat(MOST_INPUT_BYTES)).refusal, { number: 1, name: "too_many", place: 0 });
same("too long", judge.walk("0".repeat(MOST_STEPS + 1)).refusal, { number: 6, name: "too_long", place: MOST_STEPS });
same("as long as can be", judge.walk("0".repeat(MOST_STEPS), [MOST_STEPS, 0]).steps, MOST_STEPS);
same("in the table of the line program", judge.walk("0".repeat(400), [0, 0], { records: LINE_RECORDS }).refusal?.name, "no_room");
same("in five records", judge.walk("0011", [0, 0], { records: 5 }).refusal, { number: 7, name: "no_room", place: 3 });
same("in six", judge.walk("0011", [0, 0], { records: 6 }).nodes, 6);

// what was answered stays as it was
const first = judge.walk("0123"), copy = JSON.stringify([...first.table, ...first.chain]);
judge.walk("3210".repeat(2000), [-7, 9]);
judge.overlay("0123", "0123");
same("the first answer", JSON.stringify([...first.table, ...first.chain]), copy);

const marks = judge.walk("004123").marks.map(({ nodes, visits, changed }) => `${nodes} ${visits} ${changed}`);
same("P9's marks", marks, ["2 1 2", "3 1 2", "2 1 2", "3 1 3", "4 1 3", "4 2 2"]);
same("P11's hull", judge.hull("001100322223").corners, [[0, 0], [2, 0], [4, 1], [4, 2], [2, 2], [0, 1]]);
const u = judge.orthogonalHull("000112321233", [-3, 5]), pairs = judge.orthogonalHull("000112321233", [-3, 5], 2);
same("the orthogonal hull of a U", [u.digits, u.start, u.blocks], ["0001122233", [-3, 5], 6]);
same("in blocks of four panels", [pairs.digits, pairs.start, pairs.blocks], ["00112233", [-2, 2], 4]);
same("turns and back", judge.stepsOfTurns(judge.turnsOfSteps("001100322223").digits).digits, "001100322223");
same("a line", judge.line("0000015").text, "8400000000");
same("a line converted", judge.convertLine("0100040111"), "0000040123");
console.log(`${checks} checks of the binding`);
