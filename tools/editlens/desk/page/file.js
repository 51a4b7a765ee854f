// The user's file of a side: what its form file makes of the document. It is shown in place of the document, and edited by JSON Patches.

import * as calls from "./calls.js";
import { byId, element } from "./elements.js";
import { linesOf, textOf } from "./file_lines.js";
import { Rows } from "./rows.js";
import { pointer } from "./words.js";

const LONGEST = 2_000;

const field = (attributes) => element("input", { type: "text", autocomplete: "off", spellcheck: "false", ...attributes });

/** The second view of a side. `desk` is the page, and `side` the side of which it is. */
export class FileView {
  constructor(side, desk) {
    this.side = side;
    this.desk = desk;
    this.section = byId(side.side);
    this.isShown = false;
    this.known = null;
    this.lines = [];
    this.at = 0;
    this.box = this.find(".file");
    this.editor = this.find(".file-editor");
    this.rows = new Rows(this.box, (number) => this.drawLine(number));
    this.box.addEventListener("keydown", (event) => this.pressed(event));
    this.box.addEventListener("click", (event) => this.clicked(event.target.closest("[data-line]")));
    this.editor.addEventListener("keydown", (event) => event.key === "Escape" && this.leave());
    this.choices = [...this.section.querySelectorAll(".views button")];
    for (const it of this.choices) it.addEventListener("click", () => this.choose(it.value === "file"));
    const byPatch = this.find(".by-patch");
    byPatch.querySelector("button").addEventListener("click", () => this.send(byPatch.querySelector("textarea").value));
  }

  find(selector) {
    return this.section.querySelector(selector);
  }

  /** Shows the document or the file. */
  choose(isShown) {
    this.isShown = isShown;
    this.draw(this.desk.state);
  }

  /** Shows what belongs to the view that is chosen. The file is asked for where it is shown, and another one than is known. */
  draw(state) {
    const isShown = this.isShown && Boolean(state.files);
    this.find(".views").hidden = !state.files;
    for (const it of this.choices) it.setAttribute("aria-pressed", String((it.value === "file") === isShown));
    for (const name of [".file", ".by-patch"]) this.find(name).hidden = !isShown;
    for (const name of [".document", ".by-hand"]) this.find(name).hidden = isShown;
    this.find(".filter").hidden = isShown || !this.side.hasFilter;
    if (!isShown) this.leave();
    else if (this.known !== `${state.session} ${state.version}`) this.fetched = this.fetch();
  }

  async fetch() {
    const said = await calls.fileOf(this.side.side);
    if (said.version === undefined) {
      this.desk.say(said);
      return;
    }
    const name = `${said.session} ${said.version}`;
    if (said.session === this.desk.state.session && said.version < this.desk.state.version) return;
    this.known = name;
    this.fault = said.fault ?? null;
    this.lines = said.tree === undefined ? [] : linesOf(said.tree);
    this.at = Math.min(this.at, Math.max(0, this.lines.length - 1));
    this.rows.show(this.lines.length);
    this.mark();
    this.find(".file-fault").textContent = this.fault ?? "";
  }

  drawLine(number) {
    const { text } = this.lines[number];
    const chosen = { "aria-selected": String(number === this.at), "aria-posinset": number + 1, "aria-setsize": this.lines.length };
    return element("div", { class: "line", role: "option", id: `${this.side.side}-line-${number}`, "data-line": number, ...chosen }, text);
  }

  /** Marks the line that is chosen, which a screen reader reads. */
  mark() {
    const isChosen = (it) => String(Number(it.dataset.line) === this.at);
    for (const it of this.box.querySelectorAll(".line")) it.setAttribute("aria-selected", isChosen(it));
    if (this.lines.length) this.box.setAttribute("aria-activedescendant", `${this.side.side}-line-${this.at}`);
    else this.box.removeAttribute("aria-activedescendant");
  }

  pressed(event) {
    const page = Math.max(1, Math.floor(this.box.clientHeight / (this.rows.height || 20)) - 1);
    const last = this.lines.length - 1;
    const to = { ArrowUp: this.at - 1, ArrowDown: this.at + 1, PageUp: this.at - page, PageDown: this.at + page, Home: 0, End: last }[event.key];
    if (event.key === "Enter" && this.lines.length) this.edit();
    else if (to === undefined || event.altKey || event.ctrlKey || event.metaKey) return;
    else this.go(to);
    event.preventDefault();
  }

  go(number) {
    this.at = Math.max(0, Math.min(number, this.lines.length - 1));
    this.rows.reach(this.at);
    this.mark();
  }

  clicked(line) {
    if (!line) return;
    this.go(Number(line.dataset.line));
    this.edit();
  }

  /** Opens the editor of the line that is chosen. What is done there is one operation of a JSON Patch. */
  edit() {
    const { place, sort, tree, isItem } = this.lines[this.at];
    const base = this.desk.state.version;
    const name = place || "the file";
    const text = textOf(tree);
    const value = field({ "aria-label": `${name}: its value, as JSON`, value: text.length > LONGEST ? "" : text });
    const put = (op, at, written) => this.put(op, at, written, base);
    const button = (words, label, press) => element("button", { type: "button", "aria-label": `${name}: ${label}`, onclick: press }, words);
    const set = () => put("replace", place, value.value);
    value.addEventListener("keydown", (event) => event.key === "Enter" && set());
    const tools = [button("Set", "set its value", set)];
    if (place) tools.push(button("Remove", `remove it${isItem ? " from the array" : ""}`, () => put("remove", place, null)));
    tools.push(...this.adders(sort, place, name, put), button("Cancel", "leave it as it is", () => this.leave()));
    this.editor.replaceChildren(element("code", {}, name), value, ...tools);
    this.editor.hidden = false;
    value.focus();
    value.select();
  }

  /** What adds something to an array or an object. */
  adders(sort, place, name, put) {
    if (sort === "value") return [];
    const fresh = field({ class: "fresh", placeholder: "a new value, as JSON", "aria-label": `${name}: a new value, as JSON` });
    const called = { class: "fresh", placeholder: "its name", "aria-label": `${name}: the name of a new member` };
    const member = sort === "object" ? field(called) : null;
    const to = () => (member ? `${place}${pointer([member.value])}` : `${place}/-`);
    const press = () => put("add", to(), fresh.value);
    const add = element("button", { type: "button", "aria-label": `${name}: add the new value`, onclick: press }, "Add");
    return [...(member ? [member] : []), fresh, add];
  }

  /** Closes the editor. */
  leave() {
    const isIn = this.editor.contains(document.activeElement);
    this.editor.replaceChildren();
    this.editor.hidden = true;
    if (isIn && this.isShown) this.box.focus();
  }

  /** Sends one operation. A value is written into the patch as it was typed, so that a number keeps its digits. */
  async put(op, path, value, base) {
    if (value !== null) {
      try {
        JSON.parse(value);
      } catch (why) {
        const sentence = `This is not JSON, where a text stands between quotes: ${why.message}`;
        await this.desk.answered(this.side, { cause: "not-json", place: null, side: this.side.side, sentence });
        return;
      }
    }
    const rest = value === null ? "" : `,"value":${value}`;
    await this.send(`[{"op":${JSON.stringify(op)},"path":${JSON.stringify(path)}${rest}}]`, false, base);
  }

  /** Sends a patch. Where the other side would lose what it alone has, it asks before it does it all the same. */
  async send(text, drop = false, base = this.desk.state.version) {
    const said = await this.desk.sendPatch(this.side, text, drop, base);
    if (said?.ok) this.leave();
    await this.fetched;
  }
}
