// What is folded to its title, and what a filter leaves of a list, a map or a tree.

import { orderOf } from "./documents.js";
import { element } from "./elements.js";

/** So many contents of several lines stand open beside each other. Where there are more, all are folded at first. */
const OPEN = 8;
const all = (list) => `${list}|all`;

/** Whether a content is folded: as a person left it, or else where many of them stand beside each other. */
export function isFolded(list, name, beside, view) {
  return view.folds.get(name) ?? view.folds.get(all(list)) ?? beside > OPEN;
}

/** The button that folds a place to its title, or unfolds it. The kind stands before the title where both are there and differ. */
export function foldButton(name, isIn, label, title, key, view, kind = "") {
  const press = () => { view.folds.set(name, !isIn); view.redraw(); };
  const shown = [...new Set([kind, title])].filter(Boolean);
  const words = { "aria-expanded": String(!isIn), "aria-label": `${[label, ...shown].join(", ")}: its content`, title: shown.join(": ") };
  const before = shown.length > 1 ? element("span", { class: "fold-kind" }, kind) : null;
  return element("button", { type: "button", class: "fold", "data-key": key, onclick: press, ...words },
    element("span", { class: "turn", "aria-hidden": "true" }, isIn ? "▸" : "▾"), before, element("span", { class: "fold-title" }, title));
}

/** The button that folds all contents of a container, or unfolds them. */
export function foldAllButton(list, label, names, beside, key, view) {
  const isIn = names.every((it) => isFolded(list, it, beside, view));
  const press = () => {
    for (const name of view.folds.keys()) if (name.startsWith(`${list}/`) && !name.slice(list.length + 1).includes("/")) view.folds.delete(name);
    view.folds.set(all(list), !isIn);
    view.redraw();
  };
  const words = isIn ? "Unfold all" : "Fold all";
  return element("button", { type: "button", "data-key": key, "aria-label": `${label}: ${words.toLowerCase()}`, onclick: press }, words);
}

/** Lets what is folded go with an item that is moved. */
export function carryFolds(folds, list, from, to) {
  const before = [...folds];
  folds.clear();
  for (const [name, isIn] of before) {
    const [number, ...rest] = name.startsWith(`${list}/`) ? name.slice(list.length + 1).split("/") : [null];
    folds.set(number === null ? name : [list, placeAfter(Number(number), from, to), ...rest].join("/"), isIn);
  }
}

function placeAfter(number, from, to) {
  if (number === from) return to;
  if (from < number && number <= to) return number - 1;
  return to <= number && number < from ? number + 1 : number;
}

/** The kind of a content: the tag of alternatives. Of alternatives in alternatives it is the outer one. */
export const kindOf = (type, value) => (type.kind === "alternatives" ? value[0] : "");

/** What a content is called where it is folded: its first text that is not empty, in the order of the program, or else its first kind. */
export function titleOf(type, value) {
  if (type.kind === "text") return value.trim().split("\n")[0];
  if (type.kind === "alternatives") return titleOf(type.fields.find(([tag]) => tag === value[0])[1], value[1]) || value[0];
  if (type.kind !== "record") return "";
  const titles = orderOf(type).map((at) => [type.fields[at][1].kind, titleOf(type.fields[at][1], value[at])]);
  const texts = titles.filter(([kind, title]) => title && kind !== "alternatives");
  return (texts[0] ?? titles.find(([, title]) => title))?.[1] ?? "";
}

/** Whether a text, in small letters, is anywhere in a value. */
export function hasText(type, value, text) {
  const has = (it) => it.toLowerCase().includes(text);
  switch (type.kind) {
    case "text": case "int": case "enum": return has(value);
    case "record": return type.fields.some(([, inner], at) => hasText(inner, value[at], text));
    case "alternatives": return has(value[0]) || hasText(type.fields.find(([tag]) => tag === value[0])[1], value[1], text);
    case "list": return value.some((it) => hasText(type.inner, it, text));
    case "keyed": return value.some(([key, it]) => has(key) || hasText(type.inner, it, text));
    case "tree": return value.some(([, it]) => hasText(type.inner, it, text));
    default: return false;
  }
}

/**
 * The numbers of the contents that the filter of a view leaves. Inside a content that is left for something else in it, where the filter
 * would leave nothing, all are.
 */
export function filtered(values, place, view, has) {
  const numbers = [...values.keys()];
  if (!view.filter) return numbers;
  const left = numbers.filter((it) => has(values[it], view.filter));
  return left.length === 0 && place.isInside ? numbers : left;
}
