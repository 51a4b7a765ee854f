// The panels beside both documents: the last edit and its translation, the complement, the history, and the steps of a replay.

import { byId, element } from "./elements.js";
import { the } from "./names.js";

const OTHER = { left: "right", right: "left" };
const LONG = 1500;

function cut(text) {
  return text.length > LONG ? `${text.slice(0, LONG)} .. (${text.length.toLocaleString("en")} characters)` : text;
}

function wordLine(title, word) {
  return element("div", { class: "word" }, element("span", { class: "word-title" }, title), element("code", { tabindex: 0 }, cut(word)));
}

/** The words of the other documents: of a pair one, of a hub one for each document but the one that was edited. */
const othersOf = (entry) => entry.others ?? [[entry.other, entry.word]];

function translated(name, word) {
  const title = `translated for ${the(name)}`;
  return wordLine(word === "[]" ? `${title}: nothing to do` : title, word);
}

function entryLines(entry) {
  const said = element("p", { class: "said" }, entry.sentences.join("; ") || "nothing changed");
  if (entry.taken) return [element("p", { class: "said" }, `Taken back: ${entry.sentences.join("; ")}`)];
  const begun = entry.begun ? [wordLine("begun before other changes, as", entry.begun)] : [];
  const words = entry.undo
    ? [[entry.side, entry.edit], ...othersOf(entry)].map(([name, word]) => wordLine(the(name).replace(/^the (?!hub)/, ""), word))
    : [wordLine(`sent to ${the(entry.side)}`, entry.edit), ...othersOf(entry).map(([name, word]) => translated(name, word))];
  return [entry.undo ? element("p", { class: "said" }, "The last change was taken back.") : said, ...begun, ...words];
}

/** The cause of a refusal, as lines. */
export function refusalLines(said) {
  const place = said.place === null || said.place === undefined ? "" : ` at ${said.place || "the document"}`;
  const head = said.cause === "stale" ? "not done, since the documents changed" : `refused: ${said.cause}${place}`;
  const title = said.cause === "failed" || !said.cause ? "not done" : head;
  const sentence = said.sentence.replace(/\.?$/, ".");
  const lines = said.plain
    ? [element("strong", {}, said.plain), element("small", { title: sentence }, head)]
    : [element("strong", {}, title), element("span", {}, sentence)];
  if (said.allowed && !said.plain) lines.push(element("span", {}, "Allowed here: ", element("code", {}, said.allowed)));
  if (said.lost?.length) lines.push(element("span", {}, "Not made: "), element("ul", {}, ...said.lost.map((it) => element("li", {}, it))));
  if (said.since?.length) lines.push(element("span", {}, "Since then: "), element("ul", {}, ...said.since.map((it) => element("li", {}, it))));
  if (said.typed && !said.plain) lines.push(element("span", {}, "Your text was: ", element("code", {}, said.typed)));
  return lines;
}

/** The last edit: of a session the newest entry of its history, of a replay the line of its step. */
export function drawLast(state, refusal) {
  const entries = state.mode === "replay" ? state.done.entries ?? [] : state.history.slice(-1);
  const refused = state.mode === "replay" ? state.done.refused : refusal;
  const lines = [];
  if (refused) {
    if (refused.edit) lines.push(wordLine(refused.side ? `sent to ${the(refused.side)}` : "sent", refused.edit));
    lines.push(element("div", { class: "refused" }, ...refusalLines(refused)), element("p", { class: "said" }, "Nothing has changed."));
  } else {
    lines.push(...entries.flatMap(entryLines));
  }
  if (!lines.length) lines.push(element("p", { class: "said" }, "No edit yet. Change something in either document."));
  byId("last-edit-body").replaceChildren(...lines);
}

/** The complement. One that belongs to an older version is marked as such until the next one is there. */
export function drawComplement(state) {
  const { complement } = state;
  byId("complement-sentence").textContent = complement ? complement.sentence : "The program is asked what it remembers.";
  byId("complement-text").textContent = complement ? cut(complement.text) : "";
  byId("complement").classList.toggle("older", !complement || complement.version !== state.version);
}

/** The history, the newest change first. */
export function drawHistory(state) {
  byId("history").hidden = state.mode === "replay";
  const back = (it) => (it.taken ? `taken back: ${it.sentences.join("; ")}` : "the last change taken back");
  const said = (it) => (it.undo ? back(it) : it.sentences.join("; "));
  const way = (it) => (it.undo || !OTHER[it.side] ? null : element("span", { class: "way" }, ` ${it.side} → ${OTHER[it.side]}`));
  const items = [...state.history].reverse().map((it) =>
    element("li", { value: it.version }, element("span", { class: "said" }, said(it)), way(it)));
  byId("history-list").replaceChildren(...(items.length ? items : [element("li", { class: "none" }, "No change since the desk was opened.")]));
}

/** The notices of the session: where two documents disagreed, or did not fit. */
export function drawNotices(state) {
  byId("notices").replaceChildren(...state.notices.map((it) => element("li", {}, it)));
}

/** The steps of a replay: its buttons and keys call `go` with a step. */
export class Steps {
  constructor(go) {
    this.go = go;
    this.step = this.steps = 0;
    this.timer = null;
    const on = (name, step) => byId(name).addEventListener("click", () => { this.stop(); go(step()); });
    on("first", () => 0);
    on("back", () => this.step - 1);
    on("forward", () => this.step + 1);
    on("last", () => this.steps);
    byId("play").addEventListener("click", () => (this.timer ? this.stop() : this.play()));
    document.addEventListener("keydown", (event) => this.pressed(event));
  }

  pressed(event) {
    if (byId("replay").hidden || event.target.closest("input, textarea, select")) return;
    const to = { ArrowLeft: this.step - 1, ArrowRight: this.step + 1, Home: 0, End: this.steps }[event.key];
    if (to === undefined || event.altKey || event.ctrlKey || event.metaKey) return;
    event.preventDefault();
    this.stop();
    this.go(to);
  }

  play() {
    byId("play").textContent = "Stop";
    if (this.step >= this.steps) this.go(0);
    this.timer = setInterval(() => (this.step < this.steps ? this.go(this.step + 1) : this.stop()), 2000);
  }

  stop() {
    clearInterval(this.timer);
    this.timer = null;
    byId("play").textContent = "Play";
  }

  draw(state) {
    byId("replay").hidden = state.mode !== "replay";
    if (state.mode !== "replay") return;
    this.step = state.step;
    this.steps = state.steps;
    byId("step").textContent = `Step ${state.step} of ${state.steps}`;
    for (const name of ["first", "back"]) byId(name).disabled = state.step === 0;
    for (const name of ["forward", "last"]) byId(name).disabled = state.step === state.steps;
  }
}
