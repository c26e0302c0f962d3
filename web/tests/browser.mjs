// SPDX-License-Identifier: MIT
// A headless Chromium, driven over a pipe with the DevTools protocol: messages are JSON, each ended by a zero byte. No package is
// needed. `close` ends the browser that was started here, and nothing else.
import { spawn } from "node:child_process";
import { mkdtempSync, rmSync } from "node:fs";
import { tmpdir } from "node:os";
import { join } from "node:path";

const FLAGS = [
  "--headless=new", "--remote-debugging-pipe", "--no-first-run", "--disable-gpu", "--disable-dev-shm-usage",
  "--disable-extensions", "--disable-background-networking", "--disable-component-update", "--disable-sync", "--hide-scrollbars",
  "--metrics-recording-only", "--mute-audio", "--force-color-profile=srgb",
];

export class Browser {
  #process;
  #folder;
  #waiting = new Map();
  #heard = []; // who waits for an event: [method, test, resolve]
  #number = 0;
  #rest = "";
  #ended;

  /** Starts the browser that has this path. */
  constructor(path) {
    this.#folder = mkdtempSync(join(tmpdir(), "undrwyth-browser-"));
    const sandbox = process.getuid?.() === 0 ? ["--no-sandbox"] : []; // Chromium has none for root
    const stdio = ["ignore", "ignore", "ignore", "pipe", "pipe"]; // it reads descriptor 3 and writes 4
    const flags = [...FLAGS, ...sandbox, `--user-data-dir=${this.#folder}`, "about:blank"];
    this.#process = spawn(path, flags, { stdio, detached: true });
    this.#ended = new Promise((resolve) => this.#process.once("exit", resolve));
    this.#process.once("error", (why) => this.#failAll(why));
    this.#process.once("exit", () => this.#failAll(new Error("the browser has ended")));
    this.#process.stdio[4].setEncoding("utf8").on("data", (text) => this.#take(text));
    this.#process.stdio[3].on("error", () => {}); // the exit says so
  }

  #failAll(why) {
    for (const { reject } of this.#waiting.values()) reject(why);
    this.#waiting.clear();
  }

  #take(text) {
    const messages = (this.#rest + text).split("\0");
    this.#rest = messages.pop();
    for (const message of messages) this.#hear(JSON.parse(message));
  }

  #hear(message) {
    const asked = this.#waiting.get(message.id);
    if (asked) {
      this.#waiting.delete(message.id);
      if (message.error) asked.reject(new Error(`${asked.method}: ${message.error.message}`));
      else asked.resolve(message.result);
    }
    this.#heard = this.#heard.filter(([method, test, resolve]) => {
      if (method !== message.method || !test(message.params)) return true;
      resolve(message.params);
      return false;
    });
  }

  /** Sends a command, and gives its result. */
  send(method, params = {}, sessionId = undefined) {
    const id = ++this.#number;
    return new Promise((resolve, reject) => {
      this.#waiting.set(id, { resolve, reject, method });
      this.#process.stdio[3].write(JSON.stringify({ id, method, params, sessionId }) + "\0");
    });
  }

  /** The next event of this name that passes the test. */
  event(method, test = () => true) {
    return new Promise((resolve) => this.#heard.push([method, test, resolve]));
  }

  /** A tab that shows this address. */
  async open(address, { width = 1280, height = 900 } = {}) {
    const { targetId } = await this.send("Target.createTarget", { url: "about:blank" });
    const { sessionId } = await this.send("Target.attachToTarget", { targetId, flatten: true });
    const tab = new Tab(this, sessionId);
    for (const part of ["Page", "Runtime", "DOM"]) await tab.send(`${part}.enable`);
    await tab.size(width, height);
    await tab.go(address);
    return tab;
  }

  /** Asks the browser to end; if it has not after five seconds, its processes, which have a group of their own, are killed. */
  async close() {
    const late = setTimeout(() => this.kill(), 5000);
    this.send("Browser.close").catch(() => {});
    await this.#ended;
    clearTimeout(late);
    rmSync(this.#folder, { recursive: true, force: true, maxRetries: 5 });
  }

  /** Ends the processes of the browser at once, and removes its folder. */
  kill() {
    try {
      process.kill(-this.#process.pid, "SIGKILL");
    } catch { /* it has ended */ }
    rmSync(this.#folder, { recursive: true, force: true, maxRetries: 5, retryDelay: 100 });
  }
}

// The keys that are pressed, as the protocol names them.
const KEYS = { ArrowRight: 39, ArrowUp: 38, ArrowLeft: 37, ArrowDown: 40, Backspace: 8, Tab: 9, Enter: 13, Home: 36, End: 35 };

/** An expression that finds an element. */
const found = (selector, i = 0) => `document.querySelectorAll(${JSON.stringify(selector)})[${i}]`;

export class Tab {
  constructor(browser, session) {
    this.browser = browser;
    this.session = session;
  }

  send(method, params = {}) {
    return this.browser.send(method, params, this.session);
  }

  /** Goes to an address, and waits until the page says that it is ready. */
  async go(address) {
    await this.send("Page.navigate", { url: "about:blank" });
    await this.send("Page.navigate", { url: address });
    await this.until("document.documentElement?.dataset.ready === 'yes' || document.getElementById('failure')?.hidden === false");
  }

  /** The value of an expression in the page. */
  async ask(expression) {
    const how = { expression, awaitPromise: true, returnByValue: true, userGesture: true };
    const { result, exceptionDetails } = await this.send("Runtime.evaluate", how);
    if (exceptionDetails) throw new Error(`${expression}: ${exceptionDetails.exception?.description ?? exceptionDetails.text}`);
    return result.value;
  }

  /** Waits until an expression is true, ten seconds at most. */
  async until(expression) {
    for (let tries = 0; tries < 500; tries++) {
      if (await this.ask(`Boolean(${expression})`)) return;
      await new Promise((resume) => setTimeout(resume, 20));
    }
    throw new Error(`it did not come about: ${expression}`);
  }

  size(width, height, scale = 1) {
    return this.send("Emulation.setDeviceMetricsOverride", { width, height, deviceScaleFactor: scale, mobile: false });
  }

  /** Presses keys: names of keys, or letters. */
  async press(...keys) {
    for (const key of keys) {
      const letter = key.length === 1, upper = key.toUpperCase();
      const code = { key, code: letter ? `Key${upper}` : key, windowsVirtualKeyCode: KEYS[key] ?? upper.charCodeAt(0) };
      const down = letter ? { type: "keyDown", text: key } : { type: "rawKeyDown" };
      await this.send("Input.dispatchKeyEvent", { ...code, ...down });
      await this.send("Input.dispatchKeyEvent", { type: "keyUp", ...code });
    }
  }

  async click(x, y) {
    const press = { x, y, button: "left", clickCount: 1 };
    for (const type of ["mousePressed", "mouseReleased"]) await this.send("Input.dispatchMouseEvent", { type, ...press });
  }

  /** The middle of the i-th element that a selector finds. */
  middle(selector, i = 0) {
    return this.ask(`(() => { const box = ${found(selector, i)}.getBoundingClientRect();
      return [box.left + box.width / 2, box.top + box.height / 2]; })()`);
  }

  /** Clicks in the middle of an element, which is brought into view. */
  async tap(selector) {
    await this.ask(`(${found(selector)}.scrollIntoView({ block: "center" }),
      new Promise((drawn) => requestAnimationFrame(() => requestAnimationFrame(drawn))))`);
    await this.click(...(await this.middle(selector)));
  }

  text(selector) {
    return this.ask(`${found(selector)}.textContent`);
  }

  /** The texts of all elements that a selector finds. */
  texts(selector) {
    return this.ask(`Array.from(document.querySelectorAll(${JSON.stringify(selector)}), (one) => one.textContent)`);
  }

  /** The cells of the rows that a selector finds, with a space between two. */
  cells(selector) {
    return this.ask(`Array.from(document.querySelectorAll(${JSON.stringify(selector)}),
      (row) => Array.from(row.cells, (cell) => cell.textContent).join(" "))`);
  }

  count(selector) {
    return this.ask(`document.querySelectorAll(${JSON.stringify(selector)}).length`);
  }

  attribute(selector, name) {
    return this.ask(`${found(selector)}.getAttribute("${name}")`);
  }

  value(selector) {
    return this.ask(`${found(selector)}.value`);
  }

  focus(selector) {
    return this.ask(`${found(selector)}.focus()`);
  }

  /** Puts a text into a field, as a paste does. */
  fill(selector, text) {
    return this.ask(`(() => { const field = ${found(selector)}; field.value = ${JSON.stringify(text)};
      field.dispatchEvent(new Event("input", { bubbles: true })); })()`);
  }

  submit(form) {
    return this.ask(`${found(form)}.requestSubmit()`);
  }

  /** Has the page draw anew, as after a change of its width. */
  redraw() {
    return this.ask(`window.dispatchEvent(new Event("resize"))`);
  }

  async choose(selector, ...files) {
    const { root } = await this.send("DOM.getDocument");
    const { nodeId } = await this.send("DOM.querySelector", { nodeId: root.nodeId, selector });
    await this.send("DOM.setFileInputFiles", { nodeId, files });
  }

  async drop(x, y, ...files) {
    const data = { items: [], files, dragOperationsMask: 1 };
    for (const type of ["dragEnter", "dragOver", "drop"]) await this.send("Input.dispatchDragEvent", { type, x, y, data });
  }

  async picture(clip = undefined) {
    const how = { format: "png", clip, captureBeyondViewport: clip !== undefined };
    const { data } = await this.send("Page.captureScreenshot", how);
    return Buffer.from(data, "base64");
  }

  /** The page as it is printed, as PDF. */
  async print() {
    const { data } = await this.send("Page.printToPDF", { preferCSSPageSize: true, printBackground: true });
    return Buffer.from(data, "base64");
  }
}
