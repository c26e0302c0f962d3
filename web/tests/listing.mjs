// SPDX-License-Identifier: MIT
// Tests of the view of many records.
import { readFileSync } from "node:fs";
import { availableParallelism, loadavg } from "node:os";
import { join } from "node:path";
import { ROOT, native } from "./trial.mjs";

const NOT_A_DIGIT = "is not a digit from 0 to 4", NOT_A_RECORD = "refused: the line is not a record";
const HOSTILE = `<img src=x onerror="window.hacked = 1">`, SCRIPT = "<script>window.hacked = 1</script>";

// Lines with their words (null if they are accepted) and the character that is marked.
const LINES = [
  ["0000015", `refused: byte 5 at place 0 ${NOT_A_DIGIT}`, "5"],
  ["00000204", null, ""],
  ["000003044", "refused: the operation at place 2 takes a step back, and no step is left", "4"],
  ["00000a012301230f", `refused: byte 15 at place 9 ${NOT_A_DIGIT}`, "f"],
  ["01234x", `refused: 'x' at place 5 ${NOT_A_DIGIT}`, "x"],
  ["0100040111", "refused: the record has turns, which are retired; convert changes them to steps", "1"],
  ["", NOT_A_RECORD, ""],
  ["0000FF", NOT_A_RECORD, "F"],
  ["a,b,0123", `${NOT_A_RECORD}: its start is not two whole numbers`, "a"],
  ["k,20000,0,0123", "refused: a coordinate of the start is beyond 16,384", ""],
  ["order-17,120,-40,0123", null, ""],
  ["0".repeat(16385), "refused: the step at place 16384 would be the 16,385th that survives", "0"],
  ["0".repeat(32769), "refused: the input has more than 32,768 bytes", ""],
  [SCRIPT, `refused: '<' at place 0 ${NOT_A_DIGIT}`, "<"],
  [`${HOSTILE},0123`, null, ""],
  ["'", `refused: "'" at place 0 ${NOT_A_DIGIT}`, "'"],
  ["\u00e9", `refused: '\u00e9' at place 0 ${NOT_A_DIGIT}`, "\u00e9"],
];

const KINDS = ["no step", "open", "a room", "open and crossed", "closed and crossed", "there and back"];

const isFrame = (line) => /^00[0-9a-f]{4}[0-9a-f]{0,1024}$/.test(line) && parseInt(line.slice(2, 6), 16) === line.length - 6;

/** Records of many kinds, always the same. */
function manyRecords(count) {
  let state = 1;
  const random = (n) => {
    state = (state * 1103515245 + 12345) % 2147483648;
    return Math.floor(state / 65536) % n;
  };
  const digits = (length, most) => Array.from({ length }, () => random(most)).join("");
  const room = (wide, deep) => "0".repeat(wide) + "1".repeat(deep) + "2".repeat(wide) + "3".repeat(deep);
  const kinds = [
    () => room(1 + random(20), 1 + random(12)), () => digits(4 + random(60), 4), () => digits(1 + random(40), 2),
    () => "0" + digits(20, 6),
  ];
  const line = (ops) => "00" + ops.length.toString(16).padStart(4, "0") + ops + "\n";
  return Array.from({ length: count }, () => line(kinds[random(4)]())).join("");
}

/** How long it takes to list a file, in milliseconds: by the clock, and of work. */
async function timeOf(t, path) {
  const worked = async () => {
    const { metrics } = await t.tab.send("Performance.getMetrics");
    return 1000 * metrics.find(({ name }) => name === "TaskDuration").value;
  };
  const before = await worked();
  await t.tab.ask(`(() => {
    const totals = document.getElementById("totals"), field = document.getElementById("lines-file");
    totals.textContent = "";
    window.took = 0;
    field.addEventListener("change", () => window.began = performance.now(), { capture: true, once: true });
    new MutationObserver((_, watch) => {
      if (!totals.textContent.startsWith("10,000 lines")) return;
      watch.disconnect();
      requestAnimationFrame(() => window.took = performance.now() - window.began);
    }).observe(totals, { childList: true });
  })()`);
  await t.tab.choose("#lines-file", path);
  await t.tab.until("window.took > 0");
  return [Math.round(await t.tab.ask("window.took")), Math.round((await worked()) - before)];
}

export const listing = {
  async "records, as native code judges them"(t) {
    await t.open();
    await t.view("records");
    const frames = readFileSync(join(ROOT, "samples/records.txt"), "utf8").split("\n").filter(isFrame);
    const judged = native("judge", frames.join("\n") + "\n").split("\n"), seen = await t.listed(frames.join("\n"));
    t.same("lines", seen.length, frames.length);
    frames.forEach((line, i) => {
      const first = parseInt(judged[i].slice(0, 2), 16);
      if (first === 0x87) return; // the line program has 320 records, and the page as many as it needs
      t.holds(`${line}: ${seen[i]}`, seen[i].startsWith(first < 128 ? KINDS[first] : "refused: "));
    });
  },

  async "refused lines in words, with the faulty character marked"(t) {
    await t.open();
    await t.view("records");
    const seen = await t.listed(LINES.map(([line]) => line + "\n").join(""));
    const marks = await t.tab.ask(`Array.from(document.querySelectorAll("#list .row"),
      (row) => row.querySelector("mark")?.textContent ?? "")`);
    LINES.forEach(([line, sentence, mark], i) => {
      if (sentence !== null) t.same(line.slice(0, 40), seen[i], sentence);
      else t.holds(`${line} is accepted`, !seen[i].startsWith("refused"));
      t.same(`the mark in ${line.slice(0, 40)}`, marks[i], mark);
    });
    t.same("totals", await t.tab.text("#totals"), "17 lines: 2 rooms with 2 panels, 14 refused.");
    await t.tab.ask(`document.getElementById("list").style.height = ""`);
    await t.tab.redraw();
    await t.tab.focus("#list");
    await t.tab.press("Home", "ArrowDown", "ArrowDown", "ArrowDown", "ArrowDown");
    t.same("the chosen line", await t.tab.text("#chosen-words"), `Line 5: refused: 'x' at place 5 ${NOT_A_DIGIT}`);
    await t.shoot("page-refused", { scale: 0.58 });
  },

  async "a filter, and a line opened under Walk"(t) {
    await t.open();
    await t.view("records");
    await t.listed(LINES.map(([line]) => line + "\n").join(""));
    await t.tab.tap(`#filters [data-kind="2"]`);
    t.same("rooms alone", (await t.tab.texts("#list .row")).map((text) => text.split(" ")[0]), ["11", "15"]);
    await t.tab.tap("#row-1");
    const sentence = `Line 15, ${HOSTILE}: a room of 1 panel, 4 steps, counterclockwise`;
    t.same("the chosen line", await t.tab.text("#chosen-words"), sentence);
    t.same("its picture", await t.tab.count("#chosen-picture .inside"), 1);
    await t.tab.tap("#chosen-open");
    t.same("the view", await t.tab.ask(`document.getElementById("view-walk").hidden`), false);
    t.same("the record", await t.record(), "0000040123");
  },

  async "hostile text stays text"(t) {
    await t.open();
    await t.view("records");
    await t.listed(`${SCRIPT}\n${HOSTILE}\n${HOSTILE},0123\n`);
    t.same("lines", await t.tab.count("#list .row"), 3);
    for (let row = 0; row < 3; row++) await t.tab.tap(`#row-${row}`);
    t.same("there is no markup", await t.tab.count("#view-records script, #view-records img"), 0);
    t.same("nothing is run", await t.tab.ask("typeof window.hacked"), "undefined");
    for (const hostile of [SCRIPT, HOSTILE]) {
      await t.open(encodeURIComponent(hostile));
      t.same("in the address", await t.words(), `refused: '<' at place 0 ${NOT_A_DIGIT}`);
      t.same("it is shown as text", await t.tab.text("#record-fault"), hostile);
      await t.show(hostile);
      t.same("in the field", await t.words(), `refused: '<' at place 0 ${NOT_A_DIGIT}`);
      t.same("it does nothing", await t.tab.ask("typeof window.hacked"), "undefined");
    }
  },

  async "10,000 records within two seconds"(t) {
    await t.open();
    await t.view("records");
    await t.tab.send("Performance.enable", { timeDomain: "threadTicks" });
    let best = [Infinity, 0];
    for (let round = 0; round < 5 && best[0] >= 2000; round++) {
      const time = await timeOf(t, t.file(`records-${round}.txt`, manyRecords(10000)));
      if (time[0] < best[0]) best = time;
    }
    const busy = loadavg()[0] > availableParallelism(), [took, work] = best;
    console.log(`10,000 records judged and listed in ${took} ms, ${work} ms of work${busy ? "; the machine is busy" : ""}`);
    // if the machine is busy, the work counts
    t.holds("10,000 records are listed within two seconds", took < 2000 || (busy && work < 2000));
    t.holds("the page holds only what is seen", (await t.tab.count("#list .row")) < 60);
    await t.tab.focus("#list");
    await t.tab.press("End");
    t.same("the last line", (await t.tab.text("#list [aria-selected=true]")).split(" ")[0], "10000");
    const spoken = await t.tab.attribute("#list", "aria-activedescendant");
    t.same("for who hears it", await t.tab.attribute(`#${spoken}`, "aria-setsize"), "10000");
    await t.tab.press("Home", "ArrowDown", "ArrowDown");
    t.holds("the chosen line", (await t.tab.text("#chosen-words")).startsWith("Line 3:"));
    await t.shoot("page-records", { scale: 0.52 });
  },

  async "a file that is dropped, and its progress"(t) {
    await t.open();
    await t.view("records");
    const path = t.file("dropped.txt", manyRecords(8000));
    await t.tab.ask(`(() => {
      const bar = document.getElementById("progress");
      window.seen = new Set();
      new MutationObserver(() => bar.hidden || window.seen.add(bar.value)).observe(bar, { attributeFilter: ["hidden", "value"] });
    })()`);
    await t.tab.send("Emulation.setCPUThrottlingRate", { rate: 4 }); // so that it takes long on any machine
    await t.tab.drop(400, 300, path);
    await t.tab.until(`document.getElementById("totals").textContent.startsWith("8,000 lines")`);
    await t.tab.send("Emulation.setCPUThrottlingRate", { rate: 1 });
    t.holds("the progress was seen, and moved", (await t.tab.ask("window.seen.size")) > 1);
    t.same("and is gone", await t.tab.ask(`document.getElementById("progress").hidden`), true);
  },
};
