// Draws a document by its type. What a person does becomes one edit, which goes to `view.send`.
//
// A place has `steps`, which lead an edit to it, `path`, its names in the JSON document, `label`, what it is called, and `isOwn`, whether
// something around it is kept by this document alone. `isInside` says whether it is in a list, a map or a tree.

import { element, signButton } from "./elements.js";
import { drawKeyed, drawList, drawTree } from "./containers.js";
import { foldButton, isFolded } from "./folding.js";
import { lossOf, lossQuestion } from "./losses.js";
import { pointer, wholeOf } from "./words.js";

const SIMPLE = ["unit", "bool", "int", "text", "enum"];
const LONG = 60;

/** The drawing of a document, for a view: its side, its version, whether it can be edited, and where edits go. */
export function drawDocument(type, value, view) {
  const place = { steps: [], path: [], label: view.called, isOwn: false };
  if (type.kind === "record") return element("div", { class: "whole", "data-place": "" }, drawValue(type, value, place, view));
  return drawRow("the document", type, value, place, view);
}

/** The place inside another one: a field, the content of a tag, an item, a key or a node. */
export function inside(place, step, path, label) {
  const isInside = place.isInside || step[0] === "mod";
  return { steps: [...place.steps, step], path: [...place.path, ...path], label: `${place.label} ${label}`, isOwn: place.isOwn, isInside };
}

/** The key of a control, by which the focus finds it again. */
export function keyOf(place, role) {
  return `${pointer(place.path)}|${role}`;
}

/** Whether a value is drawn on one line, beside its name. */
export function isCompact(type, value) {
  if (SIMPLE.includes(type.kind)) return true;
  if (type.kind === "record") return type.fields.length === 0;
  return type.kind === "alternatives" && isCompact(contentType(type, value), value[1]);
}

function contentType(type, value) {
  return type.fields.find(([tag]) => tag === value[0])[1];
}

/** The class of a place: both documents have it, one keeps it, or it is a frame around such places. */
export function sharing(type) {
  if (!type.shared) return "own";
  return type.kind === "record" ? "frame" : "shared";
}

/** The numbers of the fields of a record in the order of the program. */
export const orderOf = (type) => type.order ?? [...type.fields.keys()];

/** A value with its name in front of it. */
export function drawRow(name, type, value, place, view) {
  const sort = sharing(type);
  const within = { ...place, isOwn: place.isOwn || sort === "own" };
  const note = sort === "own" && !place.isOwn ? element("span", { class: "note" }, "only here") : null;
  const heading = element("span", { class: "name" }, name);
  const row = element("div", { class: `row ${sort}`, "data-place": pointer(place.path) });
  if (isCompact(type, value)) {
    row.classList.add("compact");
    row.append(element("div", { class: "row-head" }, heading, note), element("div", { class: "control" }, drawValue(type, value, within, view)));
  } else {
    const tools = element("span", { class: "row-tools" });
    row.setAttribute("role", "group");
    row.setAttribute("aria-label", place.label);
    const isIn = isFolded("", pointer(place.path), 0, view);
    const fold = foldButton(pointer(place.path), isIn, place.label, name, keyOf(place, "fold"), view);
    row.append(element("div", { class: "row-head" }, fold, note, tools));
    if (isIn) row.classList.add("folded");
    else row.append(drawValue(type, value, within, view, tools));
  }
  return row;
}

/** A value without its name. Where it is a container, what it can add goes into `tools`. */
export function drawValue(type, value, place, view, tools = element("span")) {
  return KINDS[type.kind](type, value, place, view, tools);
}

function drawRecord(type, value, place, view) {
  const rows = orderOf(type).map((at) => {
    const [name, inner] = type.fields[at];
    return drawRow(name, inner, value[at], inside(place, ["at", name], [name], name), view);
  });
  return element("div", { class: "record" }, ...(rows.length ? rows : [element("span", { class: "nothing" }, "no fields")]));
}

function drawAlternatives(type, value, place, view, tools) {
  const inner = contentType(type, value);
  const options = type.fields.map(([tag]) => element("option", { value: tag }, tag));
  const menu = element("select", {
    class: "tag",
    "aria-label": `${place.label}: which kind`,
    "data-key": keyOf(place, "tag"),
    disabled: !view.canEdit,
    onchange: (event) => changeKind(event.target, inner, value, place, view),
  }, ...options);
  menu.value = value[0];
  const within = inside(place, ["stay", value[0]], [value[0]], value[0]);
  const content = drawValue(inner, value[1], within, view, tools);
  const box = element("div", { class: `content ${sharing(inner)}`, "data-place": pointer(within.path) }, content);
  return element("div", { class: isCompact(inner, value[1]) ? "alternatives compact" : "alternatives" }, menu, box);
}

/** Changes the kind of alternatives. Where something goes with the present kind, it is asked for first, and the menu shows the present one. */
function changeKind(menu, inner, [tag, content], place, view) {
  const to = menu.value;
  const key = keyOf(place, "tag");
  const change = () => view.send(place, [{ switch: [tag, to, []] }], { key });
  const others = view.tiedTo([...place.path, tag]);
  const loss = lossOf(tag, inner, content, others, view.otherCalled, view.hasMore);
  const box = menu.closest(".alternatives");
  box.querySelector(":scope > .warning")?.remove();
  if (!loss) {
    change();
    return;
  }
  menu.value = tag;
  const keep = () => { question.remove(); menu.focus(); };
  const question = lossQuestion(loss, tag, to, key, change, keep);
  box.append(question);
  question.querySelector("button").focus();
}

/**
 * Attributes of a control into which a person types. `send` gets the text, and the version for which it was typed, when the control is
 * left or Enter is pressed. In a text of many lines Enter is a line, and Ctrl+Enter sends it.
 */
export function typedInto(view, original, send) {
  const done = ({ target }) => {
    if (view.isDrawing || target.dataset.base === undefined) return;
    const base = Number(target.dataset.base);
    delete target.dataset.base;
    if (target.value !== original) send(target.value, base);
  };
  const pressed = (event) => {
    if (event.key !== "Enter" || event.isComposing || (event.target.tagName === "TEXTAREA" && !event.ctrlKey)) return;
    event.preventDefault();
    done(event);
  };
  const begun = ({ target }) => { target.dataset.base ??= view.version; };
  return { value: original, readOnly: !view.canEdit, oninput: begun, onblur: done, onkeydown: pressed };
}

function written(original, place, view, valueOf) {
  const send = (typed, base) => view.send(place, [{ set: valueOf(typed) }], { base, typed });
  return { "aria-label": place.label, "data-key": keyOf(place, "value"), ...typedInto(view, original, send) };
}

function drawText(_type, value, place, view) {
  const attributes = written(value, place, view, (typed) => typed);
  if (value.includes("\r")) {
    return element("textarea", { ...attributes, rows: 2, readOnly: true, title: "This text has carriage returns: write an edit by hand." });
  }
  if (value.includes("\n") || value.length > LONG) {
    return element("textarea", { ...attributes, rows: Math.min(8, value.split("\n").length + Math.floor(value.length / LONG)) });
  }
  return element("input", { ...attributes, type: "text", autocomplete: "off", spellcheck: "false" });
}

function drawInt(_type, value, place, view) {
  const step = (by) => () => view.send(place, [{ add: by }], { isFree: true, key: keyOf(place, by > 0 ? "more" : "less") });
  const typed = written(value, place, view, wholeOf);
  const input = element("input", { ...typed, type: "text", inputmode: "numeric", class: "int", autocomplete: "off" });
  if (!view.canEdit) return input;
  const less = signButton("−", `${place.label}: one less`, keyOf(place, "less"), step(-1));
  const more = signButton("+", `${place.label}: one more`, keyOf(place, "more"), step(1));
  return element("span", { class: "number" }, input, less, more);
}

function drawBool(_type, value, place, view) {
  return element("input", {
    type: "checkbox",
    checked: value,
    "aria-label": place.label,
    "data-key": keyOf(place, "value"),
    disabled: !view.canEdit,
    onchange: (event) => view.send(place, [{ set: event.target.checked }], { key: keyOf(place, "value") }),
  });
}

function drawEnum(type, value, place, view) {
  const menu = element("select", {
    "aria-label": place.label,
    "data-key": keyOf(place, "value"),
    disabled: !view.canEdit,
    onchange: (event) => view.send(place, [{ set: event.target.value }], { key: keyOf(place, "value") }),
  }, ...type.members.map((it) => element("option", { value: it }, it)));
  menu.value = value;
  return menu;
}

const KINDS = {
  unit: () => element("span", { class: "nothing" }, "null"),
  bool: drawBool,
  int: drawInt,
  text: drawText,
  enum: drawEnum,
  record: drawRecord,
  alternatives: drawAlternatives,
  list: drawList,
  keyed: drawKeyed,
  tree: drawTree,
};
