// The editor of the lens program: colours for the language, and the place at which the program refuses the text.

import { byId, element } from "./elements.js";

const TOKEN = /(#[^\n]*)|("[^"\\\n]*")|(-?[0-9]+)|([A-Za-z_][A-Za-z0-9_]*)|([=;{}<>[\]():,~])|(\s+)|(.)/gsu;
const TYPE_WORDS = new Set("unit bool int text enum list tree".split(" "));
const WORDS = new Set("type lens main keyed id bij disc then left right each part inv".split(" "));
const PAUSE = 250;
const WIDE = 40;
const BEFORE = 16;

function sortOf([, comment, string, number, word, mark]) {
  if (comment) return "comment";
  if (string) return "string";
  if (number) return "literal";
  if (word) return TYPE_WORDS.has(word) ? "type-word" : WORDS.has(word) ? "word" : null;
  return mark ? "sign-mark" : null;
}

/** The parts of a program, each with its sort, cut at the place that is refused. Places count characters. */
function partsOf(text, refused) {
  const cuts = refused ? [refused.from, refused.to] : [];
  const parts = [];
  let at = 0;
  for (const found of text.matchAll(TOKEN)) {
    let rest = [...found[0]];
    while (rest.length) {
      const cut = cuts.find((it) => it > at && it < at + rest.length);
      const size = cut === undefined ? rest.length : cut - at;
      const isBad = refused && at >= refused.from && at < refused.to;
      parts.push({ text: rest.slice(0, size).join(""), sort: sortOf(found), isBad });
      at += size;
      rest = rest.slice(size);
    }
  }
  if (refused && refused.from >= at) parts.push({ text: " ", sort: null, isBad: true });
  return parts;
}

/** The editor. `ask` checks a text, and `load` begins a session of it. */
export class ProgramEditor {
  constructor(ask, load) {
    this.ask = ask;
    this.area = byId("program-text");
    this.loaded = null;
    this.asked = 0;
    this.area.addEventListener("input", () => this.typed());
    this.area.addEventListener("scroll", () => this.scrolled());
    byId("load").addEventListener("click", () => load(this.area.value));
    byId("reset").addEventListener("click", () => this.show(this.loaded, true));
  }

  /** Shows the program of the session, unless a person is changing another text. */
  show(text, always = false) {
    const isUntouched = this.loaded === null || this.area.value === this.loaded;
    this.loaded = text;
    if (always || isUntouched) {
      this.area.value = text;
      this.typed();
    }
  }

  typed() {
    this.colour(null);
    clearTimeout(this.timer);
    this.timer = setTimeout(() => this.check(), PAUSE);
  }

  async check() {
    const number = ++this.asked;
    const text = this.area.value;
    const said = await this.ask(text);
    if (number !== this.asked || text !== this.area.value || !said) return;
    this.colour(said.accepted || said.from === null ? null : said);
    byId("program-said").replaceChildren(...(said.accepted ? accepted(said) : refusedLines(said.lines)));
    byId("load").disabled = !said.accepted || text === this.loaded;
    byId("reset").disabled = text === this.loaded;
    this.area.setAttribute("aria-invalid", String(!said.accepted));
  }

  colour(refused) {
    const parts = partsOf(this.area.value, refused).map(({ text, sort, isBad }) =>
      (sort || isBad ? element("span", { class: `${sort ?? ""}${isBad ? " bad" : ""}` }, text) : text));
    byId("program-colours").replaceChildren(...parts, "\n");
    this.scrolled();
  }

  scrolled() {
    byId("program-colours").scrollTop = this.area.scrollTop;
    byId("program-colours").scrollLeft = this.area.scrollLeft;
  }
}

/** Why a program is refused. The line with the caret and the one above it keep their columns: they are cut around the caret, and never wrapped. */
function refusedLines(lines) {
  const wrapped = (some) => (some.length ? [element("pre", {}, some.join("\n"))] : []);
  const at = lines.findIndex((it) => /^\s*\^+$/.test(it));
  if (at < 1) return wrapped(lines);
  const [text, carets] = [[...lines[at - 1]], [...lines[at]]];
  const from = text.length <= WIDE ? 2 : Math.max(2, Math.min(carets.indexOf("^") - BEFORE, text.length - WIDE));
  const cut = (line, mark) => `${from > 2 ? mark : ""}${line.slice(from, from + WIDE).join("")}`;
  const excerpt = element("pre", { class: "excerpt" }, `${cut(text, ".. ")}\n${cut(carets, "   ")}`);
  return [...wrapped(lines.slice(0, at - 1)), excerpt, ...wrapped(lines.slice(at + 1))];
}

function accepted(said) {
  const type = (side) => element("div", { class: "type" }, element("b", {}, side), element("code", {}, said[side]));
  return [element("p", { class: "fine" }, "The program is accepted. Its types:"), type("left"), type("right")];
}
