// What an edit does to a document of a known type, by the rules of docs/EDITS.md. The service has checked each edit that is followed here, so
// nothing is refused but a sum that does not fit. Documents are never changed: an edit makes a new one.

import { whole } from "./editlens_json.js";

const TOKEN = /"[^"]*"|-?\d+|[A-Za-z_][A-Za-z0-9_]*|[{}<>[\]:,=]/g;
const encoder = new TextEncoder();

function byBytes(one, other) {
  const [a, b] = [encoder.encode(one), encoder.encode(other)];
  for (let at = 0; at < Math.min(a.length, b.length); at += 1) if (a[at] !== b[at]) return a[at] - b[at];
  return a.length - b.length;
}

/** The type of a text, as the service shows it. */
export function readType(text) {
  const tokens = text.match(TOKEN);
  let at = 0;
  const take = (token) => tokens[at] === token && (at += 1) > 0;
  const name = () => tokens[at++].replace(/^"(.*)"$/s, "$1");
  const start = (read, without) => (take("=") ? read(tokens[at++]) : without);
  const plain = (token) => token.slice(1, -1);
  function fields(end) {
    const found = new Map();
    while (!take(end)) {
      const field = name();
      at += 1;
      found.set(field, type());
      take(",");
    }
    return found;
  }
  function members() {
    const found = [];
    for (at += 1; !take("]"); take(",")) found.push(plain(tokens[at++]));
    return { kind: "enum", start: start(plain, found[0]) };
  }
  function type() {
    const kind = tokens[at++];
    if (kind === "unit") return { kind, start: null };
    if (kind === "bool") return { kind, start: false };
    if (kind === "int") return { kind, start: start((it) => whole(BigInt(it)), 0) };
    if (kind === "text") return { kind, start: start(plain, "") };
    if (kind === "enum") return members();
    if (kind === "{") return { kind: "record", fields: fields("}") };
    if (kind === "<") return { kind: "alternatives", fields: fields(">") };
    return { kind, inner: type() };
  }
  return type();
}

/** The initial document of a type. */
export function initial({ kind, fields, inner, start }) {
  if (kind === "record") return Object.fromEntries([...fields].map(([name, it]) => [name, initial(it)]));
  if (kind === "alternatives") return Object.fromEntries([[...fields][0]].map(([name, it]) => [name, initial(it)]));
  if (kind === "list") return [];
  if (kind === "keyed") return {};
  if (kind === "tree") return { depths: [0], items: [initial(inner)] };
  return start;
}

/** The document after an edit. */
export function act(type, document, edit) {
  return edit.reduce((value, primitive) => actOne(type, value, ...Object.entries(primitive)[0]), document);
}

const withMember = (object, name, value) => Object.fromEntries(Object.entries({ ...object, [name]: null }).map(([it, old]) => [it, it === name ? value : old]));

/** A sum that does not fit into 64 bits. */
export class Overflow extends RangeError {}

function sumOf(one, other) {
  const sum = BigInt(one) + BigInt(other);
  if (BigInt.asIntN(64, sum) !== sum) throw new Overflow("the sum does not fit into 64 bits");
  return whole(sum);
}

function actOne(type, value, name, content) {
  const { kind, fields, inner } = type;
  if (name === "set") return content;
  if (name === "add") return sumOf(value, content);
  if (name === "splice") return spliced([...value], content);
  if (name === "at" || name === "stay") return withMember(value, content[0], act(fields.get(content[0]), value[content[0]], content[1]));
  if (name === "switch") {
    const other = fields.get(content[1]);
    return Object.fromEntries([[content[1], act(other, initial(other), content[2])]]);
  }
  if (name === "mod") return inside(kind, inner, value, content);
  return { list: onList, keyed: onKeyed, tree: onTree }[kind](inner, value, name, content);
}

function spliced(letters, [place, count, text]) {
  return [...letters.slice(0, place), text, ...letters.slice(place + count)].join("");
}

function inside(kind, inner, value, [place, edit]) {
  if (kind === "list") return value.with ? value.with(place, act(inner, value[place], edit)) : value.map((it, at) => (at === place ? act(inner, it, edit) : it));
  if (kind === "keyed") return withMember(value, place, act(inner, value[place], edit));
  const node = nodeAt(value.depths, place);
  return { depths: value.depths, items: value.items.map((it, at) => (at === node ? act(inner, it, edit) : it)) };
}

function moved(items, from, to) {
  const rest = [...items];
  rest.splice(to, 0, ...rest.splice(from, 1));
  return rest;
}

function onList(inner, value, name, content) {
  if (name === "ins") return [...value, ...Array.from({ length: content }, () => initial(inner))];
  if (name === "del") return value.slice(0, value.length - content);
  if (name === "move") return moved(value, ...content);
  return content.map((it) => value[it]);
}

function onKeyed(inner, value, name, content) {
  const entries = new Map(Object.entries(value));
  if (name === "put") entries.set(content, initial(inner));
  if (name === "drop") entries.delete(content);
  if (name === "rename" && content[0] !== content[1]) {
    entries.set(content[1], entries.get(content[0]));
    entries.delete(content[0]);
  }
  return Object.fromEntries([...entries].sort(([one], [other]) => byBytes(one, other)));
}

/** The number behind the last node of a subtree. */
export function endOf(depths, node) {
  let end = node + 1;
  while (end < depths.length && depths[end] > depths[node]) end += 1;
  return end;
}

/** The numbers of the children of a node. */
export function childrenOf(depths, node) {
  const found = [];
  for (let at = node + 1; at < endOf(depths, node); at += 1) if (depths[at] === depths[node] + 1) found.push(at);
  return found;
}

/** The number of the node at a path. */
export function nodeAt(depths, path) {
  return path.reduce((node, child) => childrenOf(depths, node)[child], 0);
}

function onTree(inner, { depths, items }, name, content) {
  const nodes = depths.map((depth, at) => [depth, items[at]]);
  const made = (rows) => ({ depths: rows.map(([depth]) => depth), items: rows.map(([, item]) => item) });
  if (name === "graft" || name === "prune") {
    const node = nodeAt(depths, content);
    if (name === "graft") nodes.splice(endOf(depths, node), 0, [depths[node] + 1, initial(inner)]);
    else nodes.splice(childrenOf(depths, node).at(-1), endOf(depths, node) - childrenOf(depths, node).at(-1));
    return made(nodes);
  }
  const node = nodeAt(depths, content[0]);
  if (name === "shift") {
    const blocks = childrenOf(depths, node).map((it) => nodes.slice(it, endOf(depths, it)));
    return made([...nodes.slice(0, node + 1), ...moved(blocks, content[1], content[2]).flat(), ...nodes.slice(endOf(depths, node))]);
  }
  const block = nodes.splice(node, endOf(depths, node) - node);
  const left = nodes.map(([depth]) => depth);
  const target = nodeAt(left, content[1]);
  const rise = left[target] + 1 - depths[node];
  nodes.splice(endOf(left, target), 0, ...block.map(([depth, item]) => [depth + rise, item]));
  return made(nodes);
}
