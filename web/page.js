// SPDX-License-Identifier: MIT
// The page: it loads the proved module, makes the views, and keeps the record in the address.
import { loadUndrwyth } from "./undrwyth.js";
import { PICTURE_STYLE } from "./picture.js";
import { WalkView } from "./walk.js";
import { RecordsView } from "./list.js";
import { RoomsView } from "./rooms.js";
import { TenantsView } from "./tenants.js";
import { fragmentOf } from "./record.js";
import { byId, element } from "./parts.js";

const VIEWS = ["walk", "records", "rooms", "tenants", "about"];

/** Shows one of the views, and draws it: what was hidden had no width. */
function showView(name, views) {
  for (const one of VIEWS) {
    byId(`view-${one}`).hidden = one !== name;
    byId(`tab-${one}`).setAttribute("aria-selected", String(one === name));
    byId(`tab-${one}`).tabIndex = one === name ? 0 : -1;
  }
  views[name]?.draw();
}

/** Tabs: a click, or the arrow keys from tab to tab. */
function listenToTabs(views) {
  byId("tabs").addEventListener("click", (event) => {
    if (event.target.id.startsWith("tab-")) showView(event.target.id.slice(4), views);
  });
  byId("tabs").addEventListener("keydown", (event) => {
    const at = VIEWS.findIndex((name) => `tab-${name}` === event.target.id);
    const to = { ArrowRight: at + 1, ArrowLeft: at - 1, Home: 0, End: VIEWS.length - 1 }[event.key];
    if (to === undefined) return;
    event.preventDefault();
    const name = VIEWS[(to + VIEWS.length) % VIEWS.length];
    showView(name, views);
    byId(`tab-${name}`).focus();
  });
}

/** The line that the address holds after its #. */
function lineInAddress() {
  try {
    return decodeURIComponent(location.hash.slice(1));
  } catch { // not an address that anybody wrote
    return location.hash.slice(1);
  }
}

function putIntoAddress(line) {
  try {
    history.replaceState(null, "", fragmentOf(line));
  } catch { // a page without an address of its own has no link
  }
}

/** Bytes of the module that stands in the page. */
function moduleBytes() {
  return Uint8Array.from(atob(byId("module").textContent), (character) => character.charCodeAt(0));
}

/** Begins with the line that the address holds. */
async function begin(asked) {
  const judge = await loadUndrwyth(moduleBytes()), views = {};
  document.head.append(element("style", {}, PICTURE_STYLE));
  let shown = null, later = 0; // the line that the page shows, and the timer that puts it into the address
  views.walk = new WalkView(judge, (line) => {
    shown = line;
    clearTimeout(later);
    later = setTimeout(() => putIntoAddress(line), 350); // some browsers allow few changes a second
  });
  views.records = new RecordsView(judge, (line) => {
    showView("walk", views);
    views.walk.open(line);
    byId("picture").focus();
  });
  views.rooms = new RoomsView(judge, views.walk);
  views.tenants = new TenantsView(judge);
  listenToTabs(views);
  const openAddress = () => {
    const line = lineInAddress();
    if (line === shown) return;
    showView("walk", views);
    views.walk.open(line);
  };
  views.walk.show("", [0, 0]);
  if (asked !== "") views.walk.open(asked);
  addEventListener("hashchange", openAddress);
  addEventListener("resize", () => VIEWS.forEach((name) => byId(`view-${name}`).hidden || views[name]?.draw()));
  byId("picture").focus({ preventScroll: true });
  document.documentElement.dataset.ready = "yes";
}

begin(lineInAddress()).catch((why) => {
  byId("failure").hidden = false;
  const needs = "It needs WebAssembly with BigInt, as browsers have since 2021";
  byId("failure").textContent = `This page cannot run here: ${why.message}. ${needs}.`;
});
