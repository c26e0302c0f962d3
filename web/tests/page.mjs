// SPDX-License-Identifier: MIT
// Tries the page in a real browser: node page.mjs CHROMIUM PAGE [FOLDER]. With a folder, pictures of what was seen are put there.
// UNDRWYTH_ONLY has part of a test's name, if not all are wanted.
import { mkdtempSync, rmSync } from "node:fs";
import { tmpdir } from "node:os";
import { join } from "node:path";
import { pathToFileURL } from "node:url";
import { Browser } from "./browser.mjs";
import { Trial } from "./trial.mjs";
import { walking } from "./walking.mjs";
import { listing } from "./listing.mjs";
import { rooming } from "./rooming.mjs";
import { habits } from "./habits.mjs";

const MOST = 240000; // milliseconds for all tests
const [chromium, page, pictures] = process.argv.slice(2), only = process.env.UNDRWYTH_ONLY ?? "";
const folder = mkdtempSync(join(tmpdir(), "undrwyth-page-")), browser = new Browser(chromium);

const giveUp = (why) => () => {
  console.error(`page.mjs: ${why}`);
  browser.kill();
  rmSync(folder, { recursive: true, force: true });
  process.exit(1);
};
const late = setTimeout(giveUp("it takes too long"), MOST);
for (const signal of ["SIGTERM", "SIGINT", "SIGHUP"]) process.once(signal, giveUp("it was stopped"));

async function run() {
  const address = pathToFileURL(page).href, tab = await browser.open(address);
  const trial = new Trial(browser, tab, address, folder, pictures);
  await browser.send("Browser.setDownloadBehavior", { behavior: "allow", downloadPath: folder, eventsEnabled: true });
  for (const [name, test] of Object.entries({ ...walking, ...listing, ...rooming, ...habits })) {
    if (!name.includes(only)) continue;
    const began = Date.now();
    await test(trial).catch((why) => { throw new Error(`${name}: ${why.message}`); });
    console.log(`${name}: ${Date.now() - began} ms`);
  }
  console.log(`${trial.checks} checks in ${(await browser.send("Browser.getVersion")).product}`);
}

try {
  await run();
} catch (why) {
  console.error(`page.mjs: ${why.message}`);
  process.exitCode = 1;
} finally {
  clearTimeout(late);
  await browser.close();
  rmSync(folder, { recursive: true, force: true });
}
