// SPDX-License-Identifier: MIT
// Tests of the view of one walk.

const WORKED = [
  ["000000", "no step survives"],
  ["0000040123", "a room of 1 panel, 4 steps, counterclockwise"],
  ["0000043210", "a room of 1 panel, 4 steps, clockwise"],
  ["00000202", "there and back, which is not a room"],
  ["000003022", "open and crossed: step 2 comes back to (0,0), where the walk began"],
  ["00000501223", "open: 5 steps, from (0,0) to (-1,0)"],
  ["0000042222", "open: 4 steps, from (0,0) to (-4,0)"],
  ["0000040011", "open: 4 steps, from (0,0) to (2,2)"],
  ["000006004123", "a room of 1 panel, 4 steps, counterclockwise"],
  ["0000040204", "there and back, which is not a room"],
  ["00000c001100322223", "closed and crossed: step 9 comes back to (2,1), where step 3 was"],
  ["0000014", "refused: the operation at place 0 takes a step back, and no step is left"],
  ["00000205", "refused: byte 5 at place 1 is not a digit from 0 to 4"],
];

const AFTER_EACH_KEY = [
  ["ArrowRight", "open: 1 step, from (0,0) to (1,0)"],
  ["e", "open: 2 steps, from (0,0) to (2,0)"],
  ["Backspace", "open: 1 step, from (0,0) to (1,0)"],
  ["ArrowUp", "open: 2 steps, from (0,0) to (1,1)"],
  ["w", "open: 3 steps, from (0,0) to (0,1)"],
  ["s", "a room of 1 panel, 4 steps, counterclockwise"],
];

export const walking = {
  async "every worked walk in words, as a frame and as bare digits"(t) {
    for (const [record, sentence] of WORKED) {
      await t.show(record);
      t.same(record, await t.words(), sentence);
      if (record.length === 6) continue;
      await t.show(record.slice(6));
      t.same(`${record} without its head`, await t.words(), sentence);
    }
    t.same("the faulty digit", await t.tab.text("#record-fault mark"), "5");
    await t.show("0".repeat(319));
    t.same("what the command judge takes", (await t.tab.text("#facts")).includes("Command judge"), false);
    await t.show("0".repeat(320));
    const refusal = "refuses it: the table has too few records for the operation at place 319";
    t.holds("and what it refuses", (await t.tab.text("#facts")).endsWith(refusal));
  },

  async "a refused record shows nothing else"(t) {
    await t.open();
    await t.show("0123");
    await t.show("01x3", 4, 5);
    const sentence = "refused: 'x' at place 2 is not a digit from 0 to 4";
    t.same("words", await t.words(), sentence);
    t.same("no picture and no facts", await t.tab.count("#picture svg, #facts dt"), 0);
    t.same("no room", await t.tab.ask(`document.getElementById("room").hidden`), true);
    await t.tab.focus("#picture");
    await t.tab.press("ArrowUp");
    t.same("a key changes nothing", [await t.words(), await t.record()], [sentence, "01x3"]);
    await t.tab.until(`location.hash === "#4,5,01x3"`);
    await t.open("4,5,01x3");
    t.same("by its link", [await t.words(), await t.tab.text("#record-fault mark")], [sentence, "x"]);
    await t.tab.tap("#clear");
    t.same("started anew", [await t.words(), await t.tab.value("#start-x")], ["no step survives", "4"]);
    await t.show("0", 20000, 0);
    await t.tab.tap("#clear");
    t.same("also from a start that is refused", [await t.words(), await t.tab.value("#start-x")], ["no step survives", "0"]);
  },

  async "keys and Backspace"(t) {
    await t.open();
    t.same("before the first key", await t.words(), "no step survives");
    await t.tab.press("Backspace");
    t.same("no step to take", await t.words(), "refused: the operation at place 0 takes a step back, and no step is left");
    t.same("and nothing taken", await t.record(), "000000");
    for (const [key, sentence] of AFTER_EACH_KEY) {
      await t.tab.press(key);
      t.same(`after ${key}`, await t.words(), sentence);
    }
    t.same("the record", await t.record(), "000006004123");
    await t.tab.until(`location.hash === "#000006004123"`);
    await t.tab.press("ArrowLeft", "N", "S");
    t.same("crossed", await t.words(), "open and crossed: step 4 comes back to (0,0), where the walk began");
    t.same("the record goes on", await t.record(), "000009004123213");
  },

  async "the record copied, and its marks"(t) {
    await t.open("000006004123");
    await t.browser.send("Browser.grantPermissions", { permissions: ["clipboardReadWrite"] });
    await t.tab.tap("#copy-record");
    await t.tab.until(`document.getElementById("copied").textContent === "The record is copied."`);
    t.same("the record", await t.tab.ask("navigator.clipboard.readText()"), "000006004123");
    await t.tab.tap("#copy-link");
    await t.tab.until(`document.getElementById("copied").textContent === "A link to this record is copied."`);
    t.same("the link", await t.tab.ask("navigator.clipboard.readText()"), t.address + "#000006004123");
    await t.tab.ask(`document.getElementById("marks-details").open = true`);
    await t.tab.until(`document.querySelectorAll("#marks tbody tr").length === 6`);
    const marks = ["0 east 2 1 2", "1 east 3 1 2", "2 back 2 1 2", "3 north 3 1 3", "4 west 4 1 3", "5 south 4 2 2"];
    t.same("marks", await t.tab.cells("#marks tbody tr"), marks);
  },

  async "taps on dotted corners"(t) {
    await t.open();
    for (const [way, record] of [[0, "0000010"], [1, "00000201"], [3, "000003013"]]) {
      await t.tab.click(...(await t.tab.middle("#picture .next", way)));
      t.same("the record after a tap", await t.record(), record);
    }
  },

  async "the picture"(t) {
    await t.open("00000c001100322223");
    t.same("words of the address", await t.words(), "closed and crossed: step 9 comes back to (2,1), where step 3 was");
    t.same("the label of the ring", await t.tab.text("#picture .meeting-label"), "(2,1): step 3, step 9");
    const [ring, start] = [await t.tab.middle("#picture .meeting"), await t.tab.middle("#picture .start")];
    const [east, north] = [ring[0] - start[0], start[1] - ring[1]];
    t.same("the ring is as far east of the start as two times north", Math.round((100 * east) / north), 200);
    const corners = async (look) => (await t.tab.attribute(`#picture .${look}`, "points")).split(" ").length;
    t.same("corners of hull and walk", [await corners("hull"), await corners("walk")], [6, 13]);
    t.same("arrows", (await t.tab.attribute("#picture .arrow", "d")).split("Z").length - 1, 12);
    t.same("panels", await t.tab.count("#picture .inside"), 0);
    await t.tab.tap("#show-outline");
    t.same("corners of the outline", await corners("outline"), 13);
    await t.tab.tap("#show-hull");
    t.same("the hull is left out", await t.tab.count("#picture .hull"), 0);
    await t.tab.size(1100, 720);
    await t.open("00000c001100322223");
    await t.shoot("page-walk", { scale: 0.68 });
    await t.tab.size(1280, 900);
  },

  async "a start of its own"(t) {
    await t.open();
    await t.show("0123", 5, -7);
    t.same("words", await t.words(), "a room of 1 panel, 4 steps, counterclockwise");
    await t.tab.until(`location.hash === "#5,-7,0000040123"`);
    await t.show("00", -3, 4);
    t.same("words", await t.words(), "open: 2 steps, from (-3,4) to (-1,4)");
    await t.show("00", 20000, 0);
    t.same("too far out", await t.words(), "refused: a coordinate of the start is beyond 16,384");
    await t.open("120,-40,0000040123");
    const fields = [await t.tab.value("#start-x"), await t.tab.value("#start-y"), await t.record()];
    t.same("by a link", fields, ["120", "-40", "0000040123"]);
    await t.tab.ask(`location.hash = "#00000202"`);
    await t.tab.until(`document.getElementById("words").textContent === "there and back, which is not a room"`);
  },
};
