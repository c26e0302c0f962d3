// SPDX-License-Identifier: MIT
// What the tests of the page share: a tab that shows it, comparisons, files that it saves, and pictures of what was seen.
import { execFileSync, spawnSync } from "node:child_process";
import { readFileSync, rmSync, writeFileSync } from "node:fs";
import { join } from "node:path";

export const ROOT = new URL("../../", import.meta.url).pathname;
export const TEN_BY_FOUR = "0000000000" + "1111" + "2222222222" + "3333";
export const U_SHAPE = "00001e000000001111122233221122233333";

/** Whether a command is there. */
export const has = (command) => spawnSync(command, ["--version"]).error === undefined;

/** What a command writes. */
export const output = (command, ...words) => execFileSync(command, words, { encoding: "utf8" });

/** What a command of undrwyth writes, given this input. */
export const native = (command, input) => execFileSync(join(ROOT, "undrwyth"), [command], { input, encoding: "utf8" });

const shown = (value) => JSON.stringify(value);

export class Trial {
  checks = 0;

  /** The tab shows the page of this address; files go to a folder, and pictures too if there is a folder for them. */
  constructor(browser, tab, address, folder, pictures) {
    Object.assign(this, { browser, tab, address, folder, pictures });
  }

  same(what, found, expected) {
    const [ours, theirs] = [shown(found), shown(expected)];
    if (ours !== theirs) throw new Error(`${what}: found ${ours?.slice(0, 500)}, expected ${theirs?.slice(0, 500)}`);
    this.checks++;
  }

  holds(what, value) {
    this.same(what, Boolean(value), true);
  }

  /** Opens the page anew, with a record in its address. */
  open(record = "") {
    return this.tab.go(this.address + (record === "" ? "" : "#" + record));
  }

  view(name) {
    return this.tab.tap(`#tab-${name}`);
  }

  /** Shows a record by its field, and a start by its fields. */
  async show(record, x = 0, y = 0) {
    for (const [id, text] of [["record", record], ["start-x", x], ["start-y", y]]) await this.tab.fill("#" + id, String(text));
    await this.tab.submit("#record-form");
  }

  words() {
    return this.tab.text("#words");
  }

  record() {
    return this.tab.value("#record");
  }

  path(name) {
    return join(this.folder, name);
  }

  /** A file with this content, in the folder. */
  file(name, content) {
    writeFileSync(this.path(name), content);
    return this.path(name);
  }

  /** What a button saves, as bytes. */
  async saved(button, name) {
    const done = this.browser.event("Browser.downloadProgress", ({ state }) => state === "completed");
    rmSync(this.path(name), { force: true });
    await this.tab.ask(`document.getElementById("${button}").click()`);
    await done;
    return readFileSync(this.path(name));
  }

  /** A small picture of what is seen, or of one element of the page. */
  async shoot(name, { of = null, scale = 0.6 } = {}) {
    if (!this.pictures) return;
    const seen = "({ x: 0, y: scrollY, width: innerWidth, height: innerHeight })";
    const part = `(() => { const { left, top, width, height } = document.querySelector("${of}").getBoundingClientRect();
      return { x: left, y: top + scrollY, width, height }; })()`;
    const clip = await this.tab.ask(of === null ? seen : part);
    writeFileSync(join(this.pictures, name + ".png"), await this.tab.picture({ ...clip, scale }));
  }

  /** The words of all lines of a text under Records, which are few enough to be in the page all at once. */
  async listed(text) {
    await this.tab.fill("#lines", text);
    await this.tab.until(`document.querySelectorAll("#list .row").length > 0`);
    await this.tab.ask(`document.getElementById("list").style.height = "4000px"`);
    await this.tab.redraw();
    return this.tab.texts("#list .row .said");
  }
}
