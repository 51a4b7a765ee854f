// An edit that was made for an older document, as one for the newer document; or why it is not carried there.
//
// Two people edit one document. The first edit has made the *far* document of the *near* one, for which the second edit was made. A *bridge*
// says how both differ. `bridgeOf` makes it of the first edit, and `carry` carries the second one through it, primitive by primitive.
// docs/TOOLS.md of the repository says more. This is tested and not proved, and answers as editlens.rebase for Python does.
//
// A bridge is one of these objects, and is never changed:
//
//     {is: "same"}                 both documents are the same
//     {is: "other"}                bools, ints or members of an enum, any two
//     {is: "lost"}                 texts of which one was set
//     {is: "cells", runs}          texts: runs [sort, count] of characters, "kept", "added" or "gone"; behind them all is kept
//     {is: "parts", fields}        records: a Map from fields to bridges; others are the same
//     {is: "arm", tag, inner}      alternatives with the same tag
//     {is: "away", near, far}      alternatives: the far one was switched from the tag `near` to the tag `far`
//     {is: "places", kind, near, far, links, moved, inner}
//                                  lists, maps or trees: both shapes, and for each near place its far place or null, those that
//                                  were moved as a Set, and a Map from near places to bridges of contents that differ
//     {is: "then", first, second}  one bridge behind another

import { act, childrenOf, endOf, nodeAt } from "./editlens_act.js";

const MOST_DEPTH = 15;
const [KEPT, ADDED, GONE] = ["kept", "added", "gone"];
const UNIT = { kind: "unit", start: null };

export const SAME = { is: "same" };

/** Why an edit is not carried. */
export const Cause = { GONE: "gone", TAKEN: "taken", KEPT: "kept", CYCLE: "cycle", DEEP: "deep", CHANGED: "changed" };

/** Each cause in words, for a person. */
export const SENTENCES = {
  gone: "what this edit changes is not there any more: another edit has deleted or replaced it",
  taken: "another edit has given this key to something else",
  kept: "another edit has moved a node that this edit keeps below the node that it deletes",
  cycle: "another edit has moved the new parent below the node that this edit moves",
  deep: "after another edit the tree would have more than 16 levels",
  changed: "another edit has changed the value since, and taking the older change back would lose that",
};

/** An edit that has no place in the newer document: the number of its first primitive that has none, and the path to it in the older one. */
export class NotCarried extends Error {
  constructor(cause) {
    super(SENTENCES[cause]);
    this.cause = cause;
    this.at = 0;
    this.path = [];
  }

  toString() {
    const place = this.path.map((it) => JSON.stringify(it)).join(", ") || "(the document)";
    return `${this.cause} at ${place}: ${this.message}`;
  }
}

/** The bridge over two changes, one after another. */
export function then(first, second) {
  if (first.is === "same") return second;
  return second.is === "same" ? first : { is: "then", first, second };
}

const mapped = (map, change) => new Map([...map].map(([name, inner]) => [name, change(inner)]));

/** The same bridge from the far document to the near one. */
export function flipped(bridge) {
  const turned = { kept: KEPT, added: GONE, gone: ADDED };
  if (bridge.is === "cells") return { is: "cells", runs: bridge.runs.map(([sort, count]) => [turned[sort], count]) };
  if (bridge.is === "parts") return { is: "parts", fields: mapped(bridge.fields, flipped) };
  if (bridge.is === "arm") return { is: "arm", tag: bridge.tag, inner: flipped(bridge.inner) };
  if (bridge.is === "away") return { is: "away", near: bridge.far, far: bridge.near };
  if (bridge.is === "then") return { is: "then", first: flipped(bridge.second), second: flipped(bridge.first) };
  return bridge.is === "places" ? flippedPlaces(bridge) : bridge;
}

function flippedPlaces({ kind, near, far, links, moved, inner }) {
  const back = Array.from({ length: sizeOf(kind, far) }, () => null);
  links.forEach((place, at) => {
    if (place !== null) back[place] = at;
  });
  const there = (places) => [...places].filter((it) => links[it] !== null);
  const contents = there(inner.keys()).map((it) => [links[it], flipped(inner.get(it))]);
  return { is: "places", kind, near: far, far: near, links: back, moved: new Set(there(moved).map((it) => links[it])), inner: new Map(contents) };
}

// ---- texts

/** The runs in their shortest form: none is empty, neighbours differ in sort, and the last one is not kept. */
function shortest(runs) {
  const found = [];
  for (const [sort, count] of runs) {
    const last = found.at(-1);
    if (last && last[0] === sort) last[1] += count;
    else if (count) found.push([sort, count]);
  }
  if (found.at(-1)?.[0] === KEPT) found.pop();
  return found;
}

/** The runs up to some characters, and the others. Those of the sort `skipped` are not counted. */
function cut(runs, count, skipped) {
  const front = [];
  for (let at = 0, left = count; at < runs.length; at += 1) {
    const [sort, size] = runs[at];
    if (left === 0) return [front, runs.slice(at)];
    if (sort !== skipped && size > left) return [[...front, [sort, left]], [[sort, size - left], ...runs.slice(at + 1)]];
    front.push([sort, size]);
    left -= sort === skipped ? 0 : size;
    if (at === runs.length - 1) return [[...front, [KEPT, left]], []];
  }
  return [[[KEPT, count]], []];
}

function farSpliced(runs, place, count, added) {
  const [front, rest] = cut(runs, place, GONE);
  const [middle, back] = cut(rest, count, GONE);
  const lost = middle.filter(([sort]) => sort !== ADDED).map(([, size]) => [GONE, size]);
  return shortest([...front, [ADDED, added], ...lost, ...back]);
}

/** A splice of the near text as splices of the far one, and the runs after both. What the far text has added stands first, and stays. */
function nearSpliced(runs, place, count, text) {
  const [before, after] = cut(runs, place, ADDED);
  const others = after.findIndex(([sort]) => sort !== ADDED);
  const added = others < 0 ? after : after.slice(0, others);
  const front = [...before, ...added];
  const [middle, back] = cut(after.slice(added.length), count, ADDED);
  const begin = front.reduce((sum, [sort, size]) => sum + (sort === GONE ? 0 : size), 0);
  const spared = middle.filter(([sort]) => sort === ADDED);
  return [pieces(begin, middle, text), shortest([...front, [KEPT, lengthOf(text)], ...spared, ...back])];
}

const lengthOf = (text) => [...text].length;

function pieces(begin, middle, text) {
  const found = [];
  let [at, taken, put] = [begin, 0, text];
  for (const [sort, size] of [...middle, [ADDED, 0]]) {
    if (sort === KEPT) taken += size;
    if (sort === ADDED) {
      if (taken || put) found.push({ splice: [at, taken, put] });
      [at, taken, put] = [at + lengthOf(put) + size, 0, ""];
    }
  }
  return found;
}

// ---- shapes: a number of items, keys, or depths in preorder

function shapeOf(kind, document) {
  if (kind === "list") return document.length;
  return kind === "keyed" ? Object.keys(document).sort() : document.depths;
}

const sizeOf = (kind, shape) => (kind === "list" ? shape : shape.length);
const range = (count) => Array.from({ length: count }, (_, it) => it);

function numberOf(kind, shape, place) {
  if (kind === "list") return place;
  return kind === "keyed" ? shape.indexOf(place) : nodeAt(shape, place);
}

function nameOf(kind, shape, number) {
  if (kind === "list") return number;
  return kind === "keyed" ? shape[number] : pathOf(shape, number);
}

/** The shape after edits, and for each of its places the old place, or null where it is fresh. */
function planned(kind, shape, edits) {
  const numbers = range(sizeOf(kind, shape));
  const starts = { list: () => numbers, keyed: () => Object.fromEntries(numbers.map((it) => [shape[it], it])), tree: () => ({ depths: shape, items: numbers }) };
  const value = act({ kind, inner: UNIT }, starts[kind](), edits);
  if (kind === "list") return [value.length, value];
  if (kind === "tree") return [value.depths, value.items];
  const keys = shapeOf(kind, value);
  return [keys, keys.map((key) => value[key])];
}

function parentOf(depths, node) {
  let above = node - 1;
  while (depths[above] >= depths[node]) above -= 1;
  return above;
}

function pathOf(depths, node) {
  if (node === 0) return [];
  const above = parentOf(depths, node);
  return [...pathOf(depths, above), childrenOf(depths, above).indexOf(node)];
}

const isInBlock = (depths, node, it) => it >= node && it < endOf(depths, node);

/** The tree that remains when a subtree is taken off, and the old number of each of its nodes. */
function withoutBlock(depths, node) {
  const left = range(depths.length).filter((it) => !isInBlock(depths, node, it));
  return [left.map((it) => depths[it]), left];
}

// ---- links

const allSame = (kind, shape) => ({ is: "places", kind, near: shape, far: shape, links: range(sizeOf(kind, shape)), moved: new Set(), inner: new Map() });
const withInner = (held, near, inner) => ({ ...held, inner: new Map(held.inner).set(near, inner) });
const settled = (held, places) => ({ ...held, moved: new Set([...held.moved].filter((it) => !places.includes(it))) });

function farPlanned(held, [shape, origins], movers = []) {
  const now = new Map(origins.map((old, place) => [old, place]));
  const links = held.links.map((old) => (old === null ? null : now.get(old) ?? null));
  const moved = range(links.length).filter((it) => links[it] !== null && (held.moved.has(it) || movers.includes(held.links[it])));
  const inner = new Map([...held.inner].filter(([it]) => links[it] !== null));
  return { ...held, far: shape, links, moved: new Set(moved), inner };
}

function nearPlanned(held, [shape, origins], fresh) {
  let next = 0;
  const links = origins.map((old) => (old === null ? fresh[next++] : held.links[old]));
  const places = range(origins.length).filter((it) => origins[it] !== null);
  const moved = new Set(places.filter((it) => held.moved.has(origins[it])));
  const inner = new Map(places.filter((it) => held.inner.has(origins[it])).map((it) => [it, held.inner.get(origins[it])]));
  return { ...held, near: shape, links, moved, inner };
}

// ---- the bridge that an edit makes

/** The bridge from a document to what the word makes of it. With `before`, a bridge to the document, it begins where that one does. */
export function bridgeOf(type, word, document, before = SAME) {
  let [bridge, value] = [before, document];
  for (const primitive of word) {
    bridge = afterOne(type, value, bridge, ...Object.entries(primitive)[0]);
    value = act(type, value, [primitive]);
  }
  return bridge;
}

function afterOne(type, value, bridge, name, content) {
  const { kind, fields } = type;
  if (name === "set" || name === "add") return { is: kind === "text" ? "lost" : "other" };
  if (name === "splice") {
    const [place, count, text] = content;
    return bridge.is === "lost" ? bridge : { is: "cells", runs: farSpliced(bridge.runs ?? [], place, count, lengthOf(text)) };
  }
  if (name === "at") {
    const [field, word] = content;
    const parts = new Map(bridge.fields ?? []);
    return { is: "parts", fields: parts.set(field, bridgeOf(fields.get(field), word, value[field], parts.get(field) ?? SAME)) };
  }
  if (name === "stay") {
    const [tag, word] = content;
    return bridge.is === "away" ? bridge : { is: "arm", tag, inner: bridgeOf(fields.get(tag), word, value[tag], bridge.inner ?? SAME) };
  }
  if (name === "switch") return { is: "away", near: bridge.is === "away" ? bridge.near : content[0], far: content[1] };
  const held = bridge.is === "places" ? bridge : allSame(kind, shapeOf(kind, value));
  if (name === "mod") return afterMod(type, value, held, ...content);
  return farPlanned(held, planned(kind, held.far, [{ [name]: content }]), moversOf(held, name, content));
}

function afterMod({ inner }, value, held, place, word) {
  const number = numberOf(held.kind, held.far, place);
  const near = held.links.indexOf(number);
  if (near < 0) return held;
  const content = held.kind === "tree" ? value.items[number] : value[place];
  return withInner(held, near, bridgeOf(inner, word, content, held.inner.get(near) ?? SAME));
}

/** The far places that an edit takes out of their order. */
function moversOf({ far }, name, content) {
  if (name === "move" && content[0] !== content[1]) return [content[0]];
  if (name === "shift" && content[1] !== content[2]) return [childrenOf(far, nodeAt(far, content[0]))[content[1]]];
  return name === "hang" ? [nodeAt(far, content[0])] : [];
}

// ---- an edit, carried

/**
 * The word for the far document that does there what this one does to the near document, for which it was made, as `word`; and as `bridge`
 * the one between what both words make. Throws NotCarried. That the word acts on the near document is not looked at.
 *
 * `takesBack` says that the word takes an older change back. Then a `set` of a value that was changed since is refused.
 */
export function carry(bridge, word, takesBack = false) {
  const made = [];
  let now = bridge;
  word.forEach((primitive, at) => {
    const [name, content] = Object.entries(primitive)[0];
    try {
      const [more, after] = OVER[now.is](now, name, content, takesBack);
      made.push(...more);
      now = after;
    } catch (why) {
      if (why instanceof NotCarried) why.at = at;
      throw why;
    }
  });
  return { word: made, bridge: now };
}

/** A call of which a refusal gets a further step of its path. */
function inside(step, call) {
  try {
    return call();
  } catch (why) {
    if (why instanceof NotCarried) why.path.unshift(step);
    throw why;
  }
}

function overValue(bridge, name, content, takesBack) {
  if (name === "set") {
    if (takesBack && !(bridge.is === "cells" && bridge.runs.length === 0)) throw new NotCarried(Cause.CHANGED);
    return [[{ set: content }], SAME];
  }
  if (bridge.is === "lost") throw new NotCarried(Cause.GONE);
  if (name === "add") return [[{ add: content }], bridge];
  const [word, runs] = nearSpliced(bridge.runs, ...content);
  return [word, { is: "cells", runs }];
}

function overRecord(bridge, _, [field, inner], takesBack) {
  const { word, bridge: after } = inside(field, () => carry(bridge.fields.get(field) ?? SAME, inner, takesBack));
  return [[{ at: [field, word] }], { is: "parts", fields: new Map(bridge.fields).set(field, after) }];
}

function overAlternatives(bridge, name, content, takesBack) {
  if (name === "switch") return [[{ switch: [bridge.is === "arm" ? bridge.tag : bridge.far, ...content.slice(1)] }], SAME];
  if (bridge.is === "away") throw new NotCarried(Cause.GONE);
  const { word, bridge: after } = inside(bridge.tag, () => carry(bridge.inner, content[1], takesBack));
  return [[{ stay: [bridge.tag, word] }], { is: "arm", tag: bridge.tag, inner: after }];
}

function overPlaces(held, name, content, takesBack) {
  if (name === "mod") return overContent(held, ...content, takesBack);
  const near = planned(held.kind, held.near, [{ [name]: content }]);
  const [edits, put] = FAR[name](held, content);
  const [shape, origins] = planned(held.kind, held.far, edits);
  if (held.kind === "tree" && shape.some((depth) => depth > MOST_DEPTH)) throw new NotCarried(Cause.DEEP);
  const fresh = range(origins.length).filter((it) => origins[it] === null);
  return [edits, nearPlanned(settled(farPlanned(held, [shape, origins]), put), near, fresh)];
}

function overContent(held, place, word, takesBack) {
  const near = numberOf(held.kind, held.near, place);
  const [far, carried] = inside(place, () => [farPlace(held, near), carry(held.inner.get(near) ?? SAME, word, takesBack)]);
  return [[{ mod: [nameOf(held.kind, held.far, far), carried.word] }], withInner(held, near, carried.bridge)];
}

function overTwo({ first, second }, name, content, takesBack) {
  const between = carry(first, [{ [name]: content }], takesBack);
  const last = carry(second, between.word, takesBack);
  return [last.word, then(between.bridge, last.bridge)];
}

const OVER = {
  same: (bridge, name, content) => [[{ [name]: content }], bridge],
  other: overValue,
  lost: overValue,
  cells: overValue,
  parts: overRecord,
  arm: overAlternatives,
  away: overAlternatives,
  places: overPlaces,
  then: overTwo,
};

// ---- the shape edits of the far container, each with the near places that stand after them where the near edit has put them

function farPlace(held, near) {
  if (held.links[near] === null) throw new NotCarried(Cause.GONE);
  return held.links[near];
}

/** How many places of a row stand in front of the next thing to the right that edits of the far container have not moved. */
function gap(held, behind, row) {
  const next = behind.find((it) => !held.moved.has(it) && held.links[it] !== null && row.includes(held.links[it]));
  return next === undefined ? row.length : row.indexOf(held.links[next]);
}

const without = (items, one) => items.filter((it) => it !== one);
const movedItem = (from, to) => (from === to ? [] : [{ move: [from, to] }]);

function move(held, [from, to]) {
  const far = farPlace(held, from);
  if (from === to) return [[], []];
  const behind = without(range(held.near), from).slice(to);
  return [movedItem(far, gap(held, behind, without(range(held.far), far))), [from]];
}

/** The items are moved to the end, the last one first, each in front of those before it, and removed there together. */
function remove(held, count) {
  const [edits, parked] = [[], []];
  for (const far of held.links.slice(held.near - count).reverse()) {
    if (far === null) continue;
    edits.push(...movedItem(far - parked.filter((it) => it < far).length, held.far - parked.length - 1));
    parked.push(far);
  }
  return [[...edits, ...(parked.length ? [{ del: parked.length }] : [])], []];
}

/** The items of both lists get the order among themselves, at the places that they have; the others stay. */
function reorder(held, order) {
  const mine = order.map((it) => held.links[it]).filter((it) => it !== null);
  const places = range(held.far);
  [...mine].sort((one, other) => one - other).forEach((place, at) => { places[place] = mine[at]; });
  return [places.every((it, at) => it === at) ? [] : [{ reorder: places }], order];
}

function needFree(held, key) {
  if (held.far.includes(key)) throw new NotCarried(Cause.TAKEN);
}

function put(held, key) {
  needFree(held, key);
  return [[{ put: key }], []];
}

function drop(held, key) {
  const far = held.links[held.near.indexOf(key)];
  return [far === null ? [] : [{ drop: held.far[far] }], []];
}

function rename(held, [from, to]) {
  const now = held.far[farPlace(held, held.near.indexOf(from))];
  if (from === to) return [[], []];
  if (now !== to) needFree(held, to);
  return [[{ rename: [now, to] }], []];
}

function shiftedNode(depths, node, to) {
  const above = parentOf(depths, node);
  const from = childrenOf(depths, above).indexOf(node);
  return from === to ? [] : [{ shift: [pathOf(depths, above), from, to] }];
}

/** The last child goes, where it is now, unless something that stays in the near tree is below it. */
function prune(held, path) {
  const child = childrenOf(held.near, nodeAt(held.near, path)).at(-1);
  const far = held.links[child];
  if (far === null) return [[], []];
  const isKept = (place, near) => place !== null && isInBlock(held.far, far, place) && !isInBlock(held.near, child, near);
  if (held.links.some(isKept)) throw new NotCarried(Cause.KEPT);
  const above = parentOf(held.far, far);
  return [[...shiftedNode(held.far, far, childrenOf(held.far, above).length - 1), { prune: pathOf(held.far, above) }], []];
}

/** Nothing where the node is not a child there any more. */
function shift(held, [path, from, to]) {
  const node = nodeAt(held.near, path);
  const children = childrenOf(held.near, node);
  const child = farPlace(held, children[from]);
  if (from === to || held.links[node] === null || parentOf(held.far, child) !== held.links[node]) return [[], []];
  const row = without(childrenOf(held.far, held.links[node]), child);
  return [shiftedNode(held.far, child, gap(held, without(children, children[from]).slice(to), row)), [children[from]]];
}

function hang(held, [path, to]) {
  const node = nodeAt(held.near, path);
  const [left, numbers] = withoutBlock(held.near, node);
  const [far, target] = [farPlace(held, node), farPlace(held, numbers[nodeAt(left, to)])];
  if (isInBlock(held.far, far, target)) throw new NotCarried(Cause.CYCLE);
  const [rest, places] = withoutBlock(held.far, far);
  return [[{ hang: [pathOf(held.far, far), pathOf(rest, places.indexOf(target))] }], [node]];
}

const FAR = {
  ins: (_, count) => [[{ ins: count }], []],
  del: remove,
  move,
  reorder,
  put,
  drop,
  rename,
  graft: (held, path) => [[{ graft: pathOf(held.far, farPlace(held, nodeAt(held.near, path))) }], []],
  prune,
  shift,
  hang,
};
