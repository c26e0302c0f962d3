// SPDX-License-Identifier: MIT
// Compares the sentences of web/words.js with those of programs/words.c, and what the page says of lines with `undrwyth explain`:
// node words.mjs PROGRAM; PROGRAM is words.c, built.
import { spawnSync } from "node:child_process";
import { readFileSync } from "node:fs";
import { REFUSALS, VERDICTS, loadUndrwyth } from "../undrwyth.js";
import { convexWord, orthogonalSentence, overlaySentence, refusalSentence, textFault, walkSentence } from "../words.js";
import { judgeLine } from "../record.js";

const [program] = process.argv.slice(2), root = new URL("../../", import.meta.url).pathname;
const judge = await loadUndrwyth(readFileSync(root + "dist/wasm/undrwyth32.wasm"));
const WORKED = ["", "0123", "3210", "02", "022", "01223", "2222", "0011", "004123", "0204", "001100322223", "4", "05"];
const lines = [], ours = [];
const ask = (line, sentence) => {
  lines.push(line);
  ours.push(sentence);
};

/** A walk as the words of an answer have it, or its refusal. */
function askWalk(ops, start) {
  const walk = judge.walk(ops, start);
  if (walk.refusal) {
    const { number, place } = walk.refusal, fault = textFault(ops.slice(place));
    return ask(`R ${number} ${place} 4 ${fault}`, refusalSentence(walk.refusal, fault, 4));
  }
  const [j, k] = walk.meeting ?? [65535, 65535];
  const words = [0, 0, walk.verdict, walk.steps, walk.nodes, walk.corners, j, k, walk.area, ...walk.last];
  ask(`W ${start.join(" ")} ${words.join(" ")} ${Array.from(walk.chain).join("")}`, walkSentence(walk, start));
}

/** All strings of digits 0 to 4 of a length. */
const strings = (n) => (n === 0 ? [""] : strings(n - 1).flatMap((s) => ["0", "1", "2", "3", "4"].map((d) => s + d)));

const long = ["0".repeat(300), "01".repeat(50) + "2".repeat(50) + "3".repeat(50)], odd = ["0x1", "12é"];
for (const start of [[0, 0], [-3, 7], [16384, -16384], [16385, 0]])
  for (const ops of [...WORKED, ...[1, 2, 3, 4, 5].flatMap(strings), ...long, ...odd]) askWalk(ops, start);
for (let number = 1; number <= 23; number++)
  for (const place of [0, 1, 16384, 32767])
    for (const [most, fault] of [[3, "byte 200"], [4, "'x'"], [4, undefined]])
      ask(`R ${number} ${place} ${most} ${fault ?? "-"}`, refusalSentence({ number, place }, fault, most));
for (const counts of [[0, 1, 2], [1, 0, 1], [12, 34, 1]]) {
  const [first, second, both] = counts.map((panels) => ({ panels }));
  ask(`O 0 0 ${counts.join(" ")} 1 1 1`, overlaySentence({ first, second, both }));
}
for (const [grid, count, blocks] of [[1, 4, 1], [1, 10, 6], [2, 8, 4], [16384, 4, 1]])
  ask(`G ${grid} 0 0 ${count} -2 5 ${blocks}`, orthogonalSentence({ grid, count, blocks }));
for (const convex of [0, 1]) ask(`C ${convex}`, convexWord(convex === 1));
VERDICTS.forEach((name, number) => ask(`V ${number}`, name));
REFUSALS.forEach((name, number) => ask(`N ${number}`, name));
for (const text of ["5", "x", "<script>", "'", "\\", "\t", "\r", "\x7f", "\x01", "é", "€", "𝄞", " ", "\u00a0", ""])
  ask(`F ${text}`, textFault(text));

const input = lines.map((line) => line + "\n").join("");
const { stdout, status } = spawnSync(program, { input, maxBuffer: 1 << 26, encoding: "utf8" });
if (status !== 0) throw new Error(`${program}: status ${status}`);
const theirs = stdout.split("\n");
ours.forEach((sentence, i) => {
  if (sentence !== theirs[i]) throw new Error(`${lines[i]}: the page says '${sentence}', programs/words.c '${theirs[i]}'`);
});
if (theirs.length !== ours.length + 1) throw new Error(`${theirs.length - 1} sentences came, and ${ours.length} were asked for`);
console.log(`${ours.length} sentences as programs/words.c has them`);

// what `undrwyth explain` says of lines, if there is that command: `line N: ` or the key, and the sentence
const help = spawnSync(root + "undrwyth", ["--help"], { encoding: "utf8" }).stdout;
if (/^ {2}explain /m.test(help)) {
  const more = ["0123", "order-17,120,-40,0123", "5,6,02", "a,b,0123", "k,001x", "0000FF", "<script>", ""];
  const text = readFileSync(root + "samples/records.txt", "utf8") + more.join("\n") + "\n";
  const said = spawnSync(root + "undrwyth", ["explain"], { input: text, encoding: "utf8" }).stdout.split("\n");
  text.split("\n").slice(0, -1).forEach((line, i) => {
    const { walk, start, sentence } = judgeLine(judge, line), words = walk ? walkSentence(walk, start) : `refused: ${sentence}`;
    if (!said[i].endsWith(words)) throw new Error(`'${line}': the page says '${words}', undrwyth explain '${said[i]}'`);
  });
  console.log(`${said.length - 1} lines as undrwyth explain has them`);
}
