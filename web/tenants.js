// SPDX-License-Identifier: MIT
// The view of two tenants, whose walks stand in one table.
import { bytesOfHex } from "./undrwyth.js";
import { byteFault, cornerText, cornersOf, counted, refusalSentence, walkSentence } from "./words.js";
import { boxOf, frameOf, gridLayer, meetingLayer, nextLayer, picture, stepOfTap, walkLayer } from "./picture.js";
import { hexOf } from "./save.js";
import { byId, isTyping, numberIn, roomFor, say, showFacts, stepOfKey } from "./parts.js";

const CROSSED = [3, 4]; // the verdicts of walks that meet themselves elsewhere than with both ends

export class TenantsView {
  #judge;
  #bytes = new Uint8Array();
  #starts = [[0, 0], [0, 0]];
  #answer = null;
  #frame = null;
  #picture = null;

  constructor(judge) {
    this.#judge = judge;
    byId("tenant-form").addEventListener("submit", (event) => {
      event.preventDefault();
      this.open();
    });
    document.addEventListener("keydown", (event) => this.#key(event));
    for (const button of document.querySelectorAll("[data-tenant-step]"))
      button.addEventListener("click", () => this.step(Number(button.dataset.tenantStep)));
    for (const id of ["tenant-0", "tenant-1"]) byId(id).addEventListener("change", () => this.draw());
    byId("tenant-picture").addEventListener("click", (event) => {
      const step = this.#answer ? stepOfTap(this.#frame, this.#picture, event, this.#answer.parties[this.#tenant].last) : -1;
      if (step >= 0) this.step(step);
    });
    byId("tenant-clear").addEventListener("click", () => this.#show(new Uint8Array(), this.#starts));
    this.open();
  }

  get #tenant() {
    return byId("tenant-1").checked ? 1 : 0;
  }

  #key(event) {
    if (byId("view-tenants").hidden || isTyping(event)) return;
    const step = stepOfKey(event.key);
    if (step >= 0) this.step(step);
    else if (event.key.toLowerCase() === "t") this.#change();
    else return;
    event.preventDefault();
  }

  #change() {
    byId(`tenant-${1 - this.#tenant}`).checked = true;
    say(byId("tenant-words"), `Tenant ${this.#tenant} takes the next step.`);
    this.draw();
  }

  /** One operation more of the chosen tenant. What the judge refuses is not taken, and the reason is said. */
  step(operation) {
    this.#show(Uint8Array.of(...this.#bytes, 16 * this.#tenant + operation), this.#starts);
  }

  /** Shows what the fields say. */
  open() {
    const bytes = bytesOfHex(byId("tenant-bytes").value);
    if (bytes === null) return say(byId("tenant-words"), "refused: the operations are not hexadecimal, two digits each");
    this.#show(bytes, [0, 1].map((q) => [numberIn(`tenant-x${q}`), numberIn(`tenant-y${q}`)]));
  }

  #show(bytes, starts) {
    const answer = this.#judge.walkTwo(bytes, ...starts, { table: false, marks: false });
    if (answer.refusal) {
      const fault = bytes.length > answer.refusal.place ? byteFault(bytes[answer.refusal.place]) : undefined;
      return say(byId("tenant-words"), `refused: ${refusalSentence(answer.refusal, fault, 4)}`);
    }
    this.#bytes = bytes;
    this.#starts = starts;
    this.#answer = answer;
    byId("tenant-bytes").value = hexOf(bytes).replace(/(..)(?=.)/g, "$1 ");
    starts.forEach(([x, y], q) => [byId(`tenant-x${q}`).value, byId(`tenant-y${q}`).value] = [x, y]);
    say(byId("tenant-words"), this.#sentence());
    this.#showFacts();
    this.draw();
  }

  #sentence() {
    return this.#answer.parties.map((party, q) => `Tenant ${q}: ${walkSentence(party, this.#starts[q])}.`).join(" ");
  }

  #showFacts() {
    const each = this.#answer.parties.flatMap((party, q) => [
      [`Tenant ${q}`, walkSentence(party, this.#starts[q])],
      [`Tenant ${q} stands at`, `${cornerText(party.last)}, ${counted(party.corners, "different corner")}`],
    ]);
    showFacts(byId("tenant-facts"), [...each, ["Nodes in the one table", `${this.#answer.nodes}, each counted once`]]);
  }

  draw() {
    if (!this.#answer) return;
    const { parties } = this.#answer, place = byId("tenant-picture");
    const corners = parties.map((party, q) => cornersOf(party.chain, this.#starts[q]));
    const frame = frameOf(boxOf(...corners), { ...roomFor(place), margin: 2, least: [5, 3] });
    const walks = parties.map((party, q) => walkLayer(frame, party.chain, corners[q], q === 0 ? "first" : "second"));
    const crossed = parties.map(({ verdict, meeting }, q) =>
      (CROSSED.includes(verdict) ? meetingLayer(frame, corners[q][meeting[0]], meeting) : []));
    const next = nextLayer(frame, parties[this.#tenant].last);
    this.#frame = frame;
    this.#picture = picture(frame, this.#sentence(), [gridLayer(frame), ...walks, next, ...crossed]);
    place.replaceChildren(this.#picture);
  }
}
