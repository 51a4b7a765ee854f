// The lines of a user's file. Of a file the page has a tree in which an object is `members`, an array an array, and all else its own text.

import { pointer } from "./words.js";

const INDENT = "  ";
const ENDS = { object: ["{", "}"], array: ["[", "]"] };

const sortOf = (tree) => (typeof tree === "string" ? "value" : Array.isArray(tree) ? "array" : "object");
const entriesOf = (tree) => (Array.isArray(tree) ? tree.map((it, at) => [at, it]) : tree.members);

/** The text of a tree on one line. */
export function textOf(tree) {
  const sort = sortOf(tree);
  if (sort === "value") return tree;
  if (sort === "array") return `[${tree.map(textOf).join(", ")}]`;
  return `{${tree.members.map(([name, it]) => `${JSON.stringify(name)}: ${textOf(it)}`).join(", ")}}`;
}

/** The lines of a file. Each has its text, the JSON Pointer of what it shows, the sort of that and the tree itself. */
export function linesOf(tree) {
  const lines = [];
  add(tree, { path: [], front: "", depth: 0, tail: "" }, lines);
  return lines;
}

function add(tree, { path, front, depth, tail }, lines) {
  const sort = sortOf(tree);
  const inner = sort === "value" ? [] : entriesOf(tree);
  const what = { place: pointer(path), sort, tree, isItem: typeof path.at(-1) === "number" };
  const line = (text) => ({ text: `${INDENT.repeat(depth)}${text}`, ...what });
  if (sort === "value" || inner.length === 0) {
    lines.push(line(`${front}${sort === "value" ? tree : ENDS[sort].join("")}${tail}`));
    return;
  }
  lines.push(line(`${front}${ENDS[sort][0]}`));
  inner.forEach(([name, it], at) => {
    const before = sort === "object" ? `${JSON.stringify(name)}: ` : "";
    add(it, { path: [...path, name], front: before, depth: depth + 1, tail: at < inner.length - 1 ? "," : "" }, lines);
  });
  lines.push({ ...line(`${ENDS[sort][1]}${tail}`), isEnd: true });
}
