// What goes with a kind that is changed: its content, and what the other document alone keeps for it.

import { element } from "./elements.js";
import { the } from "./names.js";
import { quoted } from "./plain.js";

const MOST = 3;
const CONTAINERS = { list: ["item", "items"], keyed: ["key", "keys"], tree: ["node", "nodes"] };

/** The values of a drawn value that are not the initial ones, in words. `isWanted` says which places count. */
function* kept(type, value, isWanted) {
  if (type.kind === "record") {
    for (const [at, [, inner]] of type.fields.entries()) yield* kept(inner, value[at], isWanted);
  } else if (type.kind === "alternatives") {
    const [tag, content] = value;
    if (tag !== type.fields[0][0] && isWanted(type)) yield tag;
    yield* kept(type.fields.find(([name]) => name === tag)[1], content, isWanted);
  } else if (CONTAINERS[type.kind]) {
    yield* keptInside(type, value, isWanted);
  } else if (isWanted(type) && type.kind !== "unit" && value !== (type.start ?? false)) {
    yield type.kind === "bool" ? "yes" : type.kind === "text" ? quoted(value) : value;
  }
}

function* keptInside(type, value, isWanted) {
  const initial = type.kind === "tree" ? 1 : 0;
  const words = CONTAINERS[type.kind];
  if (value.length > initial && isWanted(type)) {
    yield `${value.length.toLocaleString("en")} ${words[value.length === 1 ? 0 : 1]}`;
    return;
  }
  for (const it of value) yield* kept(type.inner, type.kind === "list" ? it : it[1], isWanted);
}

function listed(found) {
  const all = [...found];
  if (all.length <= MOST) return all.join(", ");
  return `${all.slice(0, MOST).join(", ")} and ${(all.length - MOST).toLocaleString("en")} more`;
}

/**
 * What goes with a content, in a sentence, or an empty one where nothing does. `others` are the places of the other document, called `name`.
 * `hasMore` says that there are documents that the page does not show.
 */
export function lossOf(tag, type, value, others, name, hasMore) {
  const here = listed(kept(type, value, () => true));
  const there = listed(others.flatMap((it) => [...kept(it.type, it.value, (inner) => !inner.shared)]));
  const said = [];
  if (here) said.push(`${here} goes with the kind ${tag}.`);
  if (there) said.push(`${here ? "So does" : "With the kind goes"} what ${the(name)} alone keeps: ${there}.`);
  if (said.length && hasMore) said.push("And so does what other views keep for it.");
  return said.join(" ");
}

/** A question below a menu: whether a kind is changed though its content goes. Nothing is sent before the answer. */
export function lossQuestion(loss, from, to, key, change, keep) {
  const button = (words, press, role) => element("button", { type: "button", "data-key": `${key}-${role}`, onclick: press }, words);
  const question = element("div", { class: "warning", role: "alertdialog", "aria-label": `Change the kind to ${to}?` },
    element("span", {}, loss), button(`Keep ${from}`, keep, "keep"), button(`Change it to ${to}`, change, "change"));
  question.addEventListener("keydown", (event) => {
    if (event.key !== "Escape") return;
    event.stopPropagation();
    keep();
  });
  return question;
}
