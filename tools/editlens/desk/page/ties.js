// Which places of the other document belong to a place, by the lens and its complement. A path has the names and places of the JSON
// document: fields, tags, keys, the numbers of items, and for a tree "items" with the number of the node.

import { pointer } from "./words.js";

/** The JSON Pointers of the places on the other side that belong to a path of a side. */
export function partners(lens, complement, side, path) {
  return tied(lens, complement, side === "left" ? 0 : 1, path).map(pointer);
}

function tied(lens, kept, from, path) {
  return RULES[lens.kind](lens, kept, from, path);
}

function under(prefix, paths) {
  return paths.map((it) => [...prefix, ...it]);
}

function ofRows(lens, kept, from, path) {
  if (path.length === 0) return [[]];
  const number = lens.rows?.findIndex((it) => it[from] === path[0]) ?? -1;
  if (number < 0) return [];
  const [row, inner] = [lens.rows[number], lens.kind === "record" ? kept?.rec?.[number] : kept?.alt?.[1]];
  return under([row[1 - from]], tied(row[2], inner, from, path.slice(1)));
}

function ofContents(name) {
  return (lens, kept, from, path) => {
    if (path.length === 0) return [[]];
    return under([path[0]], tied(lens.inner[0], kept?.[name]?.[path[0]], from, path.slice(1)));
  };
}

function ofTree(lens, kept, from, path) {
  if (path.length < 2) return [path];
  return under(path.slice(0, 2), tied(lens.inner[0], kept?.tree?.items?.[path[1]], from, path.slice(2)));
}

function ofPart(lens, kept, from, path) {
  if (path.length === 0) return from === 0 ? lens.tags.map((it) => [it]) : [[]];
  const tags = kept?.tags ?? [];
  if (from === 0) {
    const tag = tags[path[0]];
    if (tag === undefined) return [];
    const place = tags.slice(0, path[0]).filter((it) => it === tag).length;
    return [[tag, place, ...path.slice(2)]];
  }
  if (path.length === 1) return [[]];
  const places = [...tags.keys()].filter((it) => tags[it] === path[0]);
  const place = places[path[1]];
  if (place === undefined) return [];
  return path.length === 2 ? [[place], [place, path[0]]] : [[place, path[0], ...path.slice(2)]];
}

function ofComposed(lens, kept, from, path) {
  const [first, second] = from === 0 ? [0, 1] : [1, 0];
  const middle = tied(lens.inner[first], kept?.then?.[first], from, path);
  return middle.flatMap((it) => tied(lens.inner[second], kept?.then?.[second], from, it));
}

const RULES = {
  id: (_lens, _kept, _from, path) => [path],
  disc: () => [],
  bij: (_lens, _kept, _from, path) => [path],
  then: ofComposed,
  record: ofRows,
  alternatives: ofRows,
  each: ofContents("list"),
  keyed: ofContents("keyed"),
  tree: ofTree,
  part: ofPart,
  inv: (lens, kept, from, path) => tied(lens.inner[0], kept, 1 - from, path),
};
