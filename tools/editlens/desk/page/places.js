// What is at a place of a document as it is drawn. A path has the names and places of the JSON document: fields, tags, keys, the numbers of
// items, and for a tree "items" with the number of the node.

/** The names and places of a JSON Pointer. */
export function pathOf(place) {
  return place.split("/").slice(1).map((it) => it.replaceAll("~1", "/").replaceAll("~0", "~"));
}

/** The type of a place, or null where there is none. */
export function typeAt(type, path) {
  let found = type;
  for (let at = 0; at < path.length && found; at += 1) {
    if (found.fields) found = found.fields.find(([name]) => name === path[at])?.[1] ?? null;
    else if (found.kind === "tree") [found, at] = [found.inner, at + 1];
    else found = found.inner ?? null;
  }
  return found;
}

const INSIDE = {
  record: (type, value, [name]) => value[type.fields.findIndex(([it]) => it === name)],
  alternatives: (_type, [tag, content], [name]) => (tag === name ? content : undefined),
  list: (_type, value, [number]) => value[Number(number)],
  keyed: (_type, value, [key]) => value.find(([it]) => it === key)?.[1],
  tree: (_type, value, [, number]) => value[Number(number)]?.[1],
};

/** The type and the value of a place, or null where nothing is there. */
export function placeAt(type, value, path) {
  let [here, found, rest] = [type, value, path];
  while (rest.length && found !== undefined) {
    const size = here.kind === "tree" ? 2 : 1;
    found = INSIDE[here.kind]?.(here, found, rest);
    here = typeAt(here, rest.slice(0, size));
    rest = rest.slice(size);
  }
  return found === undefined ? null : { type: here, value: found };
}
