// SPDX-License-Identifier: MIT
// Tests of what the page owes to everybody: the keyboard alone, names for who hears it, narrow screens, large text, colours, and
// no network.
import { U_SHAPE } from "./trial.mjs";

const VIEWS = ["walk", "records", "rooms", "tenants", "about"];
const NAMED = ["button", "textbox", "spinbutton", "checkbox", "tab", "listbox", "radio", "application", "img"];
const TEXT_COLOURS = [
  ["ink", "paper"], ["ink", "ground"], ["soft", "paper"], ["soft", "ground"], ["meeting", "paper"], ["on-accent", "accent"],
  ["ink", "mark"], ["ink", "inside"],
];
const LINE_COLOURS = ["hull", "outline", "orthogonal", "first", "second", "both", "line"];

/** What can have the focus, and is seen, but is not reached by Tab from the view's tab. */
async function missedByTab(t, name) {
  const wanted = await t.tab.ask(`(() => {
    const seen = (one) => one.checkVisibility() && !one.disabled && one.tabIndex >= 0 && !(one.type === "radio" && !one.checked);
    window.wanted = Array.from(document.querySelectorAll("button, input, textarea, summary, [tabindex]")).filter(seen);
    window.reached = new Set();
    document.getElementById("tab-${name}").focus();
    return window.wanted.length;
  })()`);
  for (let i = 0; i < wanted + 4; i++) {
    await t.tab.press("Tab");
    await t.tab.ask("void window.reached.add(document.activeElement)");
  }
  return t.tab.ask("window.wanted.filter((one) => !window.reached.has(one)).map((one) => one.id || one.outerHTML.slice(0, 60))");
}

/** How light a colour of the page is, as WCAG 2 reckons it. */
async function lightOf(t, name) {
  const hex = await t.tab.ask(`getComputedStyle(document.documentElement).getPropertyValue("--${name}").trim()`);
  const parts = [1, 3, 5].map((at) => parseInt(hex.slice(at, at + 2), 16) / 255);
  const [r, g, b] = parts.map((part) => (part <= 0.04045 ? part / 12.92 : ((part + 0.055) / 1.055) ** 2.4));
  return 0.2126 * r + 0.7152 * g + 0.0722 * b + 0.05;
}

async function contrast(t, one, other) {
  const [a, b] = [await lightOf(t, one), await lightOf(t, other)];
  return Math.max(a, b) / Math.min(a, b);
}

export const habits = {
  async "the keyboard alone"(t) {
    await t.open(U_SHAPE);
    for (const name of VIEWS) {
      t.same(`what Tab does not reach in ${name}`, await missedByTab(t, name), []);
      await t.tab.focus(`#tab-${name}`);
      await t.tab.press("ArrowRight");
    }
    const hidden = await t.tab.ask(`document.getElementById("view-walk").hidden`);
    t.same("the arrow keys went from tab to tab and round", hidden, false);
  },

  async "names for who hears the page"(t) {
    for (const name of VIEWS) {
      await t.tab.ask(`document.getElementById("tab-${name}").click()`);
      const { nodes } = await t.tab.send("Accessibility.getFullAXTree");
      const unnamed = nodes.filter((node) => !node.ignored && NAMED.includes(node.role?.value) && !node.name?.value);
      t.same(`controls without a name in ${name}`, unnamed.map((node) => node.role.value), []);
    }
    t.same("the words are a live region", await t.tab.attribute("#words", "role"), "status");
  },

  async "a phone's width, and large text"(t) {
    for (const [width, size] of [[360, 100], [360, 200], [1280, 200], [768, 100]]) {
      await t.tab.size(width, 780);
      await t.open(U_SHAPE);
      await t.tab.ask(`document.documentElement.style.fontSize = "${size}%"`);
      await t.tab.redraw();
      for (const name of VIEWS) {
        await t.tab.ask(`document.getElementById("tab-${name}").click()`);
        const wider = await t.tab.ask(`[document.documentElement, ...document.querySelectorAll(".picture, .card")]
          .map((one) => one.scrollWidth - one.clientWidth).filter((pixels) => pixels > 0)`);
        t.same(`${name} at ${width} pixels and ${size} %: pixels too wide`, wider, []);
      }
      await t.tab.ask(`document.getElementById("tab-walk").click(), scrollTo(0, 0)`);
      if (width === 360 && size === 100) await t.shoot("page-phone", { scale: 0.8 });
      if (width === 1280) await t.shoot("page-large", { scale: 0.5 });
    }
    await t.tab.size(1280, 900);
  },

  async "light and dark"(t) {
    for (const scheme of ["light", "dark"]) {
      await t.tab.send("Emulation.setEmulatedMedia", { features: [{ name: "prefers-color-scheme", value: scheme }] });
      await t.open("00000c001100322223");
      for (const [ink, ground] of TEXT_COLOURS)
        t.holds(`${scheme}: ${ink} on ${ground} has a contrast of 4.5`, (await contrast(t, ink, ground)) >= 4.5);
      for (const line of LINE_COLOURS)
        t.holds(`${scheme}: ${line} on paper has a contrast of 3`, (await contrast(t, line, "paper")) >= 3);
      if (scheme === "dark") await t.shoot("page-dark", { scale: 0.5 });
    }
    t.holds("dark is dark", (await lightOf(t, "paper")) < (await lightOf(t, "ink")));
    await t.tab.send("Emulation.setEmulatedMedia", { features: [] });
  },

  async "nothing is fetched"(t) {
    const asked = [];
    await t.tab.send("Network.enable");
    const listen = async () => {
      for (;;) asked.push((await t.browser.event("Network.requestWillBeSent")).request.url.split("#")[0]);
    };
    listen();
    await t.open(U_SHAPE);
    for (const name of VIEWS) await t.view(name);
    t.same("requests", [...new Set(asked)].filter((url) => url !== "about:blank"), [t.address]);
    const fetched = `fetch("https://example.invalid/").then(() => "fetched", () => "refused")`;
    t.same("the policy forbids it too", await t.tab.ask(fetched), "refused");
  },
};
