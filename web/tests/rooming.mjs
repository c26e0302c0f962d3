// SPDX-License-Identifier: MIT
// Tests of rooms: what is saved, opened and printed, two rooms over each other, and two tenants.
import { join } from "node:path";
import { TEN_BY_FOUR, U_SHAPE, has, native, output } from "./trial.mjs";

const entities = (dxf) => dxf.slice(dxf.indexOf("ENTITIES"));

/** The area that GDAL finds. */
function area(path, shape, from) {
  const query = `SELECT ST_Area(${shape}) AS area FROM ${from}`;
  return /= (.*)/.exec(output("ogrinfo", "-q", "-dialect", "SQLite", "-sql", query, path))?.[1];
}

/** A polygon with all its numbers in the other byte order. */
function twinOf(wkb) {
  const twin = Buffer.from(wkb);
  twin[0] = 1 - twin[0];
  for (const at of [1, 5, 9]) twin.subarray(at, at + 4).reverse();
  for (let at = 13; at < twin.length; at += 8) twin.subarray(at, at + 8).reverse();
  return twin;
}

/** A polygon with one coordinate changed. */
function changed(wkb, at, number) {
  const other = Buffer.from(wkb);
  other.writeDoubleLE(number, at);
  return other.toString("hex");
}

export const rooming = {
  async "a room of 10 by 4 panels is saved"(t) {
    await t.open();
    await t.show(TEN_BY_FOUR);
    t.same("the room", await t.tab.text("#room-words"), "40 panels, convex, 6,000 by 2,400 mm");
    const rows = ["1 0 0 9 10 6,000", "2 1 0 9 10 6,000", "3 2 0 9 10 6,000", "4 3 0 9 10 6,000"];
    t.same("its rows", await t.tab.cells("#rows tbody tr"), rows);
    t.same("rows as CSV", (await t.saved("save-csv", "rows.csv")).toString().split("\n"), [
      "number,row,first,last,panels,millimetres", "1,0,0,9,10,6000", "2,1,0,9,10,6000", "3,2,0,9,10,6000", "4,3,0,9,10,6000", "",
    ]);
    const hex = native("polygons", `00001c${TEN_BY_FOUR}\n`).trim().split(",").at(-1);
    t.same("the polygon, to the byte", (await t.saved("save-wkb", "room.wkb")).toString("hex"), hex);
    t.same("in hexadecimal", (await t.saved("save-hex", "room.hex")).toString(), hex + "\n");
    const svg = (await t.saved("save-svg", "walk.svg")).toString();
    t.holds("the picture is a file of its own", svg.startsWith("<svg ") && !svg.includes("var("));
    t.holds("with nothing to tap", svg.includes(`class="start`) && !svg.includes(`class="next`));
    const parsed = `new DOMParser().parseFromString(${JSON.stringify(svg)}, "image/svg+xml")`;
    t.same("and well formed", await t.tab.ask(`${parsed}.querySelectorAll("parsererror").length`), 0);
  },

  async "GeoJSON and DXF, also for GDAL"(t) {
    await t.open();
    await t.show(TEN_BY_FOUR);
    const [geojson, dxf] = [await t.saved("save-geojson", "room.geojson"), await t.saved("save-dxf", "room.dxf")].map(String);
    const ring = [[0, 0], [6000, 0], [6000, 2400], [0, 2400], [0, 0]];
    t.same("GeoJSON", JSON.parse(geojson).geometry, { type: "Polygon", coordinates: [ring] });
    t.holds("DXF in millimetres", dxf.includes("$INSUNITS\n 70\n4\n"));
    t.same("DXF as the command draws it", entities(dxf), entities(native("dxf", TEN_BY_FOUR + "\n")));
    if (!has("ogrinfo")) return console.log("GDAL is not there: GeoJSON and DXF are not opened with it");
    t.same("the area of GeoJSON", area(t.path("room.geojson"), "geometry", "room"), "14400000");
    t.same("the area of DXF", area(t.path("room.dxf"), "ST_BuildArea(geometry)", "entities WHERE Text IS NULL"), "14400000");
  },

  async "a polygon is opened"(t) {
    await t.open();
    await t.show(TEN_BY_FOUR, 3, -2);
    const wkb = await t.saved("save-wkb", "room.wkb"), twin = twinOf(wkb);
    for (const content of [wkb, twin, twin.toString("hex"), wkb.toString("hex").toUpperCase() + "\r\n"]) {
      await t.open();
      await t.tab.choose("#open-file", t.file("other.wkb", content));
      await t.tab.until(`document.getElementById("open-words").textContent !== ""`);
      t.same("what is said", await t.tab.text("#open-words"), "a polygon of 28 steps from (3,-2)");
      const fields = [await t.record(), await t.tab.value("#start-x"), await t.tab.value("#start-y")];
      t.same("what is shown", fields, ["00001c" + TEN_BY_FOUR, "3", "-2"]);
    }
    const hexadecimal = "the text is not hexadecimal, two digits a byte";
    for (const [hex, sentence] of [
      [wkb.subarray(0, 12).toString("hex"), "the file does not have 13 bytes and 16 for each point"],
      ["02" + wkb.toString("hex").slice(2),
        "the file is not a polygon of one ring: its byte order, type or ring count is another"],
      [changed(wkb, 13 + 16, 601), "a coordinate is not a whole multiple of 600, or is too far out"],
      [changed(wkb, 13 + 24, 600), "the ring has a slant, a repeated point or fewer than four points, or is not closed"],
      ["01zz", hexadecimal], ["+1", hexadecimal], ["010", hexadecimal],
    ]) {
      await t.tab.fill("#open-hex", hex);
      await t.tab.submit("#open-form");
      t.same(hex.slice(0, 20), await t.tab.text("#open-words"), "refused: " + sentence);
    }
  },

  async "the orthogonal hull of a room"(t) {
    const said = () => t.tab.text("#orthogonal-words"), put = (grid) => t.tab.fill("#grid", String(grid));
    const corners = async () => (await t.tab.attribute("#picture .orthogonal", "points")).split(" ").length;
    await t.open(U_SHAPE);
    t.same("words", await said(), "an orthogonal hull of 40 panels, 26 steps");
    t.same("not drawn unless it is asked for", await t.tab.count("#picture .orthogonal"), 0);
    await t.tab.tap("#show-orthogonal");
    t.same("its corners, the first twice", await corners(), 27);
    t.same("no lines between blocks of one panel", await t.tab.count("#picture .blocks"), 0);
    await put(3);
    t.same("in blocks", await said(), "an orthogonal hull of 6 blocks of 3 by 3 panels, 10 steps");
    t.same("corners of blocks", await corners(), 11);
    t.same("lines between blocks", await t.tab.count("#picture .blocks"), 1);
    await t.shoot("page-orthogonal", { of: "#view-walk > div" });
    for (const grid of ["0", "16385", "", "1.5"]) {
      await put(grid);
      t.same(`grid size ${grid}`, await said(), "refused: the grid size is not a number from 1 to 16,384");
      t.same("no hull is drawn", await t.tab.count("#picture .orthogonal"), 0);
    }
    await put(16384);
    t.same("one block", await said(), "an orthogonal hull of 1 block of 16384 by 16384 panels, 4 steps");
    await put(1);
    await t.show("0012");
    t.same("what is not a room has none", await t.tab.count("#picture .orthogonal"), 0);
  },

  async "two rooms over each other"(t) {
    const said = () => t.tab.text("#overlay-words");
    await t.open();
    await t.view("rooms");
    t.same("words", await said(), "8 panels in the first only, 8 panels in the second only, 4 panels in both");
    t.same("the legend", await t.tab.texts("#overlay-legend li"),
      ["8 panels in the first only, stripes up", "8 panels in the second only, stripes down", "4 panels in both, dots"]);
    const fills = `Array.from(document.querySelectorAll("#overlay-picture .part"), (one) => one.getAttribute("fill"))`;
    t.same("patterns", new Set(await t.tab.ask(fills)).size, 3);
    await t.shoot("page-overlay", { of: "#view-rooms > div" });
    const parts = (await t.saved("overlay-csv", "parts.csv")).toString().split("\n");
    t.same("parts as CSV", parts.filter((line) => line.startsWith("both")), ["both,1,2,3,2", "both,2,2,3,2"]);
    await t.tab.fill("#second", "00112");
    await t.tab.submit("#rooms-form");
    t.same("not a room", await said(), "The second record is not a room: open: 5 steps, from (2,1) to (3,3)");
    await t.tab.fill("#first", "0012x");
    await t.tab.submit("#rooms-form");
    t.same("refused", await said(), "The first record is not a room: refused: 'x' at place 4 is not a digit from 0 to 4");
    t.same("the mark", await t.tab.text("#first-fault mark"), "x");
  },

  async "two tenants in one table"(t) {
    const said = () => t.tab.text("#tenant-words"), room = "a room of 2 panels, 6 steps, counterclockwise";
    await t.open();
    await t.view("tenants");
    t.same("words", await said(), `Tenant 0: ${room}. Tenant 1: ${room}.`);
    t.holds("nodes", (await t.tab.text("#tenant-facts")).includes("8, each counted once"));
    await t.tab.focus("#tenant-picture");
    await t.tab.press("t", "Backspace", "t", "e");
    t.same("the bytes", await t.tab.value("#tenant-bytes"), "00 12 00 12 11 14 01 13 02 10 02 10 03 11 14 00");
    const crossed = "open and crossed: step 6 comes back to (0,0), where the walk began";
    t.same("words after keys", await said(), `Tenant 0: ${crossed}. Tenant 1: open: 5 steps, from (3,1) to (3,0).`);
    await t.tab.click(...(await t.tab.middle("#tenant-picture .next", 1)));
    t.holds("a tap north", (await t.tab.value("#tenant-bytes")).endsWith("14 00 01"));
    await t.tab.fill("#tenant-bytes", "00 25");
    await t.tab.submit("#tenant-form");
    t.same("an unknown tenant", await said(), "refused: byte 37 at place 1 is of neither party");
  },

  async "the order sheet, on A4"(t) {
    await t.open(U_SHAPE);
    const pdf = t.file("sheet.pdf", await t.tab.print());
    if (!has("pdftotext")) return console.log("pdftotext is not there: the printed sheet is not read");
    const text = output("pdftotext", "-layout", pdf, "-"), facts = output("pdfinfo", pdf);
    for (const part of ["Order sheet", "36, each 600 by 600 mm", "4,800 mm wide", "3,000 mm deep", "not convex", U_SHAPE])
      t.holds(`the sheet says ${part}`, text.includes(part));
    t.holds("the second run of row 5", /^ *5 +6 +8 +3 +3,000 mm +1,800 mm$/m.test(text));
    t.holds("nothing else of the page", !text.includes("Take a step") && !text.includes("Copy"));
    t.holds("one page", /^Pages: +1$/m.test(facts));
    t.holds("of A4", /^Page size: +59[45][.\d]* x 84[12]/m.test(facts));
    if (t.pictures) output("pdftoppm", "-r", "60", "-png", "-singlefile", pdf, join(t.pictures, "page-sheet"));
    await t.show("0012");
    t.file("sheet.pdf", await t.tab.print());
    t.holds("no order for what is not a room", output("pdftotext", pdf, "-").includes("There is no order: open"));
  },
};
