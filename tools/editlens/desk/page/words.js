// Edits, as the program reads them. A number is kept as a string until it is written, since JavaScript has no 64-bit numbers.

/** A text that is JSON already, as the digits of a number. */
export class Verbatim {
  constructor(text) {
    this.text = text;
  }
}

/** The number of a text, or the text itself where it is not a whole number: the program says why it does not fit then. */
export function wholeOf(text) {
  const bare = text.trim().replace(/^\+/, "");
  return /^-?(0|[1-9][0-9]*)$/.test(bare) && bare !== "-0" ? new Verbatim(bare) : text;
}

/** The JSON text of a tree that may hold such texts. */
export function writeJson(tree) {
  if (tree instanceof Verbatim) return tree.text;
  if (Array.isArray(tree)) return `[${tree.map(writeJson).join(",")}]`;
  if (tree !== null && typeof tree === "object") {
    return `{${Object.entries(tree).map(([name, inner]) => `${JSON.stringify(name)}:${writeJson(inner)}`).join(",")}}`;
  }
  return JSON.stringify(tree);
}

/** The edit that does something at a place: `steps` lead there from the document, the outermost first. */
export function editAt(steps, word) {
  return steps.reduceRight((inner, [name, place]) => [{ [name]: [place, inner] }], word);
}

/** The word that takes an item out of a list of so many: it is moved to the end, and then deleted. */
export function removeItem(place, count) {
  return place === count - 1 ? [{ del: 1 }] : [{ move: [place, count - 1] }, { del: 1 }];
}

/** The paths of the nodes of a tree in preorder, and the number of children of each. */
export function nodesOf(depths) {
  const counts = [];
  const nodes = [];
  depths.forEach((depth, number) => {
    counts.length = depth + 1;
    if (depth > 0) counts[depth - 1] += 1;
    counts[depth] = 0;
    nodes.push({ number, depth, path: counts.slice(0, depth).map((it) => it - 1), children: 0 });
  });
  const byPath = new Map(nodes.map((it) => [it.path.join("."), it]));
  for (const node of nodes.slice(1)) byPath.get(node.path.slice(0, -1).join(".")).children += 1;
  return nodes;
}

/** The word that takes the subtree of a node out of a tree. */
export function removeNode(path, siblings) {
  const parent = path.slice(0, -1);
  const place = path[path.length - 1];
  const move = place === siblings - 1 ? [] : [{ shift: [parent, place, siblings - 1] }];
  return [...move, { prune: parent }];
}

/** The word that hangs a node below the one before it. */
export function nestNode(path) {
  const place = path[path.length - 1];
  return [{ hang: [path, [...path.slice(0, -1), place - 1]] }];
}

/** The word that makes a node the next sibling of its parent, which has so many siblings and itself. */
export function liftNode(path, parents) {
  const parent = path.slice(0, -1);
  const above = parent.slice(0, -1);
  const place = parent[parent.length - 1] + 1;
  const move = place === parents ? [] : [{ shift: [above, parents, place] }];
  return [{ hang: [path, above] }, ...move];
}

/** The path of a node after the subtree of another one was taken off, or null where it goes with it. */
export function pathWithout(taken, path) {
  const last = taken.length - 1;
  const isBelow = taken.every((step, at) => path[at] === step);
  if (isBelow) return null;
  const sameParent = taken.slice(0, last).every((step, at) => path[at] === step) && path.length > last;
  return sameParent && path[last] > taken[last] ? [...path.slice(0, last), path[last] - 1, ...path.slice(last + 1)] : path;
}

/** The JSON Pointer of names and places. */
export function pointer(path) {
  return path.map((step) => `/${String(step).replaceAll("~", "~0").replaceAll("/", "~1")}`).join("");
}
