// The page: draws the state that the server has, and sends each action as one edit.

import { call, follow, stateAt } from "./calls.js";
import { drawDocument } from "./documents.js";
import { startDrag } from "./dragging.js";
import { byId, element } from "./elements.js";
import { FileView } from "./file.js";
import { callSide, namesOf } from "./names.js";
import { completed } from "./news.js";
import { Steps, drawComplement, drawHistory, drawLast, drawNotices, refusalLines } from "./panels.js";
import { pathOf, placeAt, typeAt } from "./places.js";
import { plainly } from "./plain.js";
import { ProgramEditor } from "./program.js";
import { partners } from "./ties.js";
import { Turns } from "./turns.js";
import { Versions } from "./versions.js";
import { Views } from "./views.js";
import { Verbatim, editAt, pathWithout, pointer, writeJson } from "./words.js";

const SIDES = ["left", "right"];
const OTHER = { left: "right", right: "left" };
const CONTAINER = /"kind":"(list|keyed|tree)"/;
const MARKS = { set: "changed", new: "new", moved: "moved" };

/** Marks the element of a place, once. */
function markAt(found, words) {
  if (found.matches(".folded") && found.querySelector(".mark")) return;
  const around = found.matches(".row, .entry") ? found : found.closest(".row, .entry");
  const head = found.matches(".row.compact") ? null : around?.querySelector(":scope > .row-head");
  const box = head ?? (found.matches(".row, .entry") ? found : null);
  if (!box || box.querySelector(":scope > .mark")) return;
  const mark = element("span", { class: "mark" }, words);
  if (box.matches(".entry")) box.insertBefore(mark, box.querySelector(":scope > .tools, :scope.wide > .control"));
  else box.append(mark);
}

/** One side of the page: it draws its document, and finds the places in it. */
class Side {
  constructor(name, desk) {
    this.side = name;
    this.desk = desk;
    this.starts = new Map();
    this.longLists = new Map();
    this.folds = new Map();
    this.drawn = new Map();
    this.filter = "";
    this.refusal = null;
    this.root = byId(name).querySelector(".document");
    this.root.addEventListener("pointerover", (event) => desk.pointedAt(this, event.target));
    this.root.addEventListener("pointerleave", () => desk.pointedAt(this, null));
    this.root.addEventListener("scroll", () => this.scrolled());
    this.root.addEventListener("focusin", (event) => desk.pointedAt(this, event.target));
    const byHand = byId(name).querySelector(".by-hand");
    byHand.querySelector("button").addEventListener("click", () => desk.sendText(this, byHand.querySelector("textarea").value));
    byHand.hidden = true;
    this.filterInput = byId(name).querySelector(".filter");
    this.filterInput.addEventListener("input", () => this.filterBy(this.filterInput.value));
    this.file = new FileView(this, desk);
  }

  /** Shows what has a text inside alone. */
  filterBy(text) {
    this.filter = text.trim().toLowerCase();
    this.starts.clear();
    this.redraw();
  }

  /** Another document is shown from now on: no place of the one before is known. */
  forgetPlaces() {
    this.starts.clear();
    this.folds.clear();
    this.endFilter();
  }

  endFilter() {
    this.filterInput.value = this.filter = "";
  }

  get version() { return this.desk.state.version; }
  get canEdit() { return this.desk.state.mode !== "replay"; }
  get otherSide() { return OTHER[this.side]; }
  get called() { return namesOf(this.desk.state)[this.side]; }
  get otherCalled() { return namesOf(this.desk.state)[this.otherSide]; }
  get hasMore() { return (this.desk.state.hub?.views.length ?? 0) > 1; }

  /** What belongs to a path in the other document: types and values. What needs a complement that is still to come is left out. */
  tiedTo(path) {
    const { lens, complement, version, sides } = this.desk.state;
    const { type, document } = sides[this.otherSide];
    const kept = complement?.version === version ? complement.tree : null;
    return partners(lens, kept, this.side, path).map((it) => placeAt(type, document, pathOf(it))).filter(Boolean);
  }

  /** Sends an edit of a place. */
  send(place, word, focus) {
    // A browser may say that a text was left when its field is drawn anew. It was not sent by a person then.
    if (this.isDrawing) return null;
    return this.desk.send(this, editAt(place.steps, word), { place: pointer(place.path), ...focus });
  }

  hang(place, from, to) {
    const target = pathWithout(from, to);
    if (target) this.send(place, [{ hang: [from, target] }], { into: pointer(place.path) });
    else this.desk.say({ cause: "failed", sentence: "A node is not hung below itself" });
  }

  drag(event, { drop }, list) {
    startDrag(event, this.root, list, drop);
  }

  redraw() {
    const held = this.held();
    const { type, document, changes } = this.desk.state.sides[this.side];
    this.isDrawing = true;
    this.root.replaceChildren(drawDocument(type, document, this));
    this.isDrawing = false;
    for (const it of this.longLists.values()) it.measure();
    this.findPlaces();
    this.hasFilter = CONTAINER.test(JSON.stringify(type));
    byId(this.side).classList.toggle("fixed", !this.canEdit);
    this.file.draw(this.desk.state);
    this.markChanges(changes);
    this.showRefusal();
    this.hold(held);
  }

  findPlaces() {
    this.drawn = new Map([...this.root.querySelectorAll("[data-place]")].map((it) => [it.dataset.place, it]));
  }

  /** Draws what comes into sight of a long list, once before the next picture. */
  scrolled() {
    this.scrolling ??= requestAnimationFrame(() => {
      this.scrolling = undefined;
      if ([...this.longLists.values()].filter((it) => it.follow(this.root)).length) this.drewMore();
    });
  }

  /** More of a long list is drawn than before. */
  drewMore() {
    this.findPlaces();
    this.markChanges(this.desk.state.sides[this.side].changes);
    if (this.refusal && !byId(this.side).querySelector(".refused.here")) this.showRefusal();
  }

  /** The element of a place, or of the nearest one around it that is drawn. */
  at(place) {
    const names = place.split("/");
    while (names.length) {
      const found = this.drawn.get(names.join("/"));
      if (found) return found;
      names.pop();
    }
    return this.root;
  }

  /** The element of a place, or the folded one around it. Null where neither is drawn. */
  shown(place) {
    const found = this.at(place);
    return found.dataset.place === place || found.matches(".folded") ? found : null;
  }

  markChanges(changes) {
    for (const [place, sort] of changes) {
      const found = this.shown(place);
      if (found) markAt(found, MARKS[sort]);
    }
  }

  showRefusal() {
    const box = byId(this.side).querySelector(".refusal");
    box.replaceChildren();
    if (!this.refusal) return;
    const lines = refusalLines(this.refusal);
    const close = element("button", { type: "button", onclick: () => { this.refusal = null; this.redraw(); } }, "Close");
    const { again } = this.refusal;
    const anyway = again ? element("button", { type: "button", onclick: again }, "Do it all the same") : null;
    const said = element("div", { class: "refused here" }, ...lines, ...(anyway ? [anyway] : []), close);
    const { place } = this.refusal;
    if (place === null || place === undefined) box.append(said);
    else {
      const found = this.at(place);
      found.classList.add("refused-here");
      found.append(said);
    }
  }

  /** What has the focus now, with a text that was typed and not sent yet. */
  held() {
    const active = document.activeElement;
    if (!this.root.contains(active) || !active.dataset.key) return null;
    const place = active.dataset.key.slice(0, active.dataset.key.lastIndexOf("|"));
    const { base } = active.dataset;
    const typed = base === undefined ? null : { text: active.value, base: this.desk.rebased(this, Number(base), place) };
    return { key: active.dataset.key, typed, from: active.selectionStart, to: active.selectionEnd };
  }

  hold(held) {
    const found = held && this.root.querySelector(`[data-key="${CSS.escape(held.key)}"]`);
    if (!found) return;
    if (held.typed) {
      found.value = held.typed.text;
      found.dataset.base = held.typed.base;
    }
    found.focus({ preventScroll: true });
    if (typeof held.from === "number" && found.setSelectionRange) found.setSelectionRange(held.from, held.to);
  }

  /** Puts the focus on a control by its key, or on the first one of a place. */
  focus({ key, into, from }) {
    // A person who went on to another control meanwhile is left there.
    const active = document.activeElement?.dataset.key;
    if (active !== undefined && active !== from) return;
    const byKey = key && this.root.querySelector(`[data-key="${CSS.escape(key)}"]`);
    const around = into !== undefined ? this.at(into) : byKey?.closest(".entry");
    const controls = "input, select, textarea, button:not(:disabled):not(.fold)";
    const first = around?.querySelector(controls) ?? around?.querySelector(".fold");
    const written = around?.matches(".entry") ? around.querySelector("input, select, textarea") : null;
    const found = byKey && !byKey.disabled ? byKey : written ?? first;
    found?.focus();
    found?.scrollIntoView({ block: "nearest" });
  }
}

/** The page as a whole. */
class Page {
  constructor() {
    this.state = null;
    this.step = null;
    this.view = null;
    this.refusal = null;
    this.versions = new Versions();
    this.turns = new Turns(() => this.showUndo());
    this.drawn = Promise.resolve();
    this.sides = Object.fromEntries(SIDES.map((it) => [it, new Side(it, this)]));
    this.steps = new Steps((step) => this.go(step));
    this.views = new Views((view) => this.chooseView(view));
    this.program = new ProgramEditor((text) => call("check", { program: text }), (text) => this.load(text));
    for (const name of ["undo", "redo"]) byId(name).addEventListener("click", () => this.goBack(name));
    document.addEventListener("keydown", (event) => this.pressed(event));
    byId("message-close").addEventListener("click", () => { byId("message").hidden = true; });
    document.addEventListener("keydown", (event) => event.key === "Escape" && this.dismiss());
    follow(() => this.refresh(), (isThere) => this.connected(isThere));
    this.refresh();
  }

  connected(isThere) {
    byId("connection").textContent = isThere ? "" : "The desk does not answer";
    document.body.classList.toggle("lost", !isThere);
  }

  /** Takes the last change back, or makes it again. */
  goBack(name) {
    return this.ask(name, {}, name === "undo" ? "Taking the last change back" : "Making the change again");
  }

  /** Control with Z takes back, and with Shift makes again, but not where a text is written: there it is of the text. */
  pressed(event) {
    const isWritten = event.target.closest("textarea, input:not([type=checkbox])");
    if (isWritten || !(event.ctrlKey || event.metaKey) || event.key.toLowerCase() !== "z" || !this.state) return;
    const name = event.shiftKey ? "redo" : "undo";
    event.preventDefault();
    if (!byId(name).hidden) this.goBack(name);
  }

  showUndo() {
    const isBusy = this.turns.open.length > 0;
    for (const name of ["undo", "redo"]) {
      const has = this.state?.[name];
      byId(name).hidden = !has?.can;
      byId(name).setAttribute("aria-disabled", String(isBusy || has?.now === false));
    }
  }

  /** Draws what the server has, behind what is on its way: no answer is drawn over that of a later question. */
  refresh(focus = null) {
    this.drawn = this.drawn.then(() => this.refreshNow(focus)).catch(reportError);
    return this.drawn;
  }

  async refreshNow(focus) {
    const said = await stateAt(this.step, this.state, this.view);
    this.answeredAt = performance.now();
    if (said.version === undefined || said.sentence) this.say(said);
    else this.draw(completed(this.state, said), focus);
  }

  go(step) {
    this.step = Math.max(0, Math.min(step, this.steps.steps));
    return this.refresh();
  }

  /** Shows another view of a hub, behind what is on its way. Where some of that is refused, the view stays, and with it the refusal. */
  chooseView(view) {
    const { refusal } = this;
    return this.turns.take(`Opening view ${view}`, null, async () => {
      if (this.refusal !== refusal) return;
      this.forget();
      this.view = view;
      this.sides.right.forgetPlaces();
      await this.refresh();
    });
  }

  draw(state, focus) {
    const isSame = this.state !== null && this.state.version === state.version && this.state.hub?.view === state.hub?.view;
    if (this.state && state.version < this.state.version && state.mode !== "replay") return;
    const isNewer = !isSame && this.state !== null;
    if (!isSame) this.versions.drawn(this.state, state);
    this.state = state;
    byId("title").textContent = state.title;
    Object.entries(namesOf(state)).forEach(([side, name]) => callSide(side, name));
    this.views.draw(state);
    this.showUndo();
    if (state.fault) this.say({ cause: "failed", sentence: state.fault });
    if (isNewer) this.forget();
    if (state.mode === "replay") this.showReplayRefusal();
    if (!isSame) SIDES.forEach((it) => this.sides[it].redraw());
    this.steps.draw(state);
    this.drawPanels();
    if (focus) focus.side.focus(focus);
    this.pointedAt(this.pointedSide, this.pointedElement);
    if (!isSame) measured(this.answeredAt, state.version);
  }

  drawPanels() {
    drawLast(this.state, this.refusal);
    drawComplement(this.state);
    drawHistory(this.state);
    drawNotices(this.state);
    this.program.show(this.state.program);
    byId("program").classList.toggle("fixed", this.state.mode !== "session" || Boolean(this.state.hub));
  }

  forget() {
    this.refusal = null;
    SIDES.forEach((it) => { this.sides[it].refusal = null; });
  }

  dismiss() {
    byId("message").hidden = true;
    if (!SIDES.some((it) => this.sides[it].refusal)) return;
    this.forget();
    SIDES.forEach((it) => this.sides[it].redraw());
    drawLast(this.state, null);
  }

  showReplayRefusal() {
    const { refused } = this.state.done;
    SIDES.forEach((it) => { this.sides[it].refusal = refused && refused.side === it ? refused : null; });
  }

  /** Says something that belongs to no place. */
  say(said) {
    byId("message-text").replaceChildren(...refusalLines(said));
    byId("message").hidden = false;
  }

  /** The version that an edit, begun at a base, may name. */
  rebased(side, base, place, isFree = false) {
    return this.versions.rebased(base, this.state.version, side.side, place, isFree);
  }

  /** Is kept when all that was asked for has its answer. */
  get turn() { return this.turns.last; }

  /**
   * Sends an edit of a side, behind those that are on their way. A second press of a control does nothing until the first has its answer,
   * but what was typed is always sent, and so is an edit that is free: it holds for whatever the place has inside.
   */
  send(side, edit, focus = {}) {
    const base = focus.base ?? this.state.version;
    const from = document.activeElement?.dataset.key;
    const isPress = !focus.isFree && focus.base === undefined && focus.place !== undefined;
    const name = isPress ? `${side.side} ${focus.key ?? writeJson(edit)}` : null;
    const view = this.state.hub?.view;
    return this.turns.take("Sending the edit", name, () => this.sendNow(side, edit, base, { from, view, ...focus }));
  }

  /** Sends an edit. A refusal is shown at its place, and the document is drawn as it is. */
  async sendNow(side, edit, base, focus) {
    const now = focus.place === undefined ? base : this.rebased(side, base, focus.place, focus.isFree);
    const body = { base: new Verbatim(String(now)), side: side.side, edit, ...(focus.view === undefined ? {} : { view: focus.view }) };
    await this.answered(side, await call("edit", body), focus);
  }

  /** Sends a JSON Patch of the file of a side. Where the other side would lose what it alone has, the refusal has a button that does it. */
  sendPatch(side, text, drop, base) {
    return this.turns.take("Sending the patch", `${side.side} patch`, async () => {
      const body = { base: new Verbatim(String(base)), side: side.side, patch: text, drop };
      const said = await call("patch", body);
      const again = said.cause === "private-loss" ? () => side.file.send(text, true) : undefined;
      await this.answered(side, { ...said, again });
      return said;
    });
  }

  async answered(side, said, focus = {}) {
    if (said.ok) {
      await this.refresh({ side, ...focus });
      return;
    }
    this.forget();
    if (said.since || said.cause === "failed" || !said.cause) {
      await this.refresh();
      side.redraw();
      this.say({ ...said, typed: focus.typed });
      return;
    }
    const refusal = this.inPlainWords(side, said, focus);
    this.refusal = refusal;
    side.refusal = { ...refusal, typed: focus.typed };
    side.redraw();
    drawLast(this.state, refusal);
    side.at(refusal.place ?? "").querySelector(".refused")?.scrollIntoView({ block: "nearest" });
  }

  /** A refusal with its place and, where it was made by a control, with a sentence for a person. */
  inPlainWords(side, said, { place, typed }) {
    if (place === undefined) return said;
    const here = said.place ?? place;
    const plain = plainly(said.cause, typeAt(this.state.sides[side.side].type, pathOf(here)), typed);
    return plain ? { ...said, place: here, plain } : said;
  }

  /** Sends an edit that was written by hand, as it is. */
  async sendText(side, text) {
    try {
      JSON.parse(text);
    } catch (why) {
      await this.answered(side, { cause: "not-json", place: null, sentence: `This is not JSON: ${why.message}`, side: side.side });
      return;
    }
    await this.send(side, new Verbatim(text));
  }

  /** Asks for something that is no edit, once until it has its answer. */
  ask(name, body, words) {
    return this.turns.take(words, name, () => this.askNow(name, body));
  }

  async askNow(name, body) {
    const said = await call(name, { base: new Verbatim(String(this.state.version)), ...body });
    if (said.ok) await this.refresh();
    else this.say(said);
    return said;
  }

  async load(text) {
    const said = await this.ask("load", { program: text }, "Loading the program");
    if (said?.ok) this.program.show(text, true);
  }

  /** Marks a place, and what belongs to it on the other side. */
  pointedAt(side, target) {
    this.pointedSide = side;
    this.pointedElement = target;
    document.querySelectorAll(".tied").forEach((it) => it.classList.remove("tied"));
    const place = target?.isConnected ? target.closest("[data-place]") : null;
    const { complement, version } = this.state ?? {};
    if (!place || !complement || complement.version !== version || place.dataset.place === "") return;
    const path = pathOf(place.dataset.place);
    const others = partners(this.state.lens, complement.tree, side.side, path);
    const found = others.map((it) => this.sides[side.otherSide].shown(it)).filter(Boolean);
    if (found.length) [place, ...found].forEach((it) => it.closest(".entry, .row")?.classList.add("tied"));
  }
}

/** Notes when a version was painted, and how long that took from its answer on, for a script that measures the page. */
function measured(start, version) {
  requestAnimationFrame(() => setTimeout(() => {
    performance.mark("painted");
    performance.measure("drawing", { start, end: performance.now(), detail: { version } });
  }));
}

window.page = new Page();
