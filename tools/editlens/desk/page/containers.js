// Draws lists, keyed maps and trees: what they hold, a part at a time, with what adds, moves, renames and removes it.

import { element, signButton } from "./elements.js";
import { drawValue, inside, isCompact, keyOf, sharing, typedInto } from "./documents.js";
import { carryFolds, filtered, foldAllButton, foldButton, hasText, isFolded, kindOf, titleOf } from "./folding.js";
import { endButtons, fillList, turnTo } from "./long_lists.js";
import { liftNode, nestNode, nodesOf, pointer, removeItem, removeNode } from "./words.js";

/** So many contents are looked at for what the button that folds all of them does. */
const LOOKED_AT = 50;

/** Lets a content that is added be seen: its part of the container, unfolded, whatever the filter was. */
function show(number, path, place, view) {
  if (number !== null) turnTo(number, pointer(place.path), view);
  view.folds.set(pointer([...place.path, ...path]), false);
  view.endFilter();
}

function counted(shown, count, one, many) {
  const said = `${count.toLocaleString("en")} ${count === 1 ? one : many}`;
  return element("span", { class: "count" }, shown === count ? said : `${shown.toLocaleString("en")} of ${said}`);
}

/** The tools at the head of a container: how much it holds, a button to its end, and one that folds all contents of several lines. */
function headOf(contents, count, place, view, [one, many], tools, toEnd) {
  tools.append(counted(contents.length, count, one, many), ...(toEnd ? [toEnd] : []));
  const wide = contents.filter(({ type, value }) => !isCompact(type, value));
  const names = wide.slice(0, LOOKED_AT).map(({ path }) => pointer([...place.path, ...path]));
  const list = pointer(place.path);
  if (wide.length > 1) tools.append(foldAllButton(list, place.label, names, contents.length, keyOf(place, "fold-all"), view));
}

/** An entry of a container: a handle to drag it, its content, and its tools. A content of many lines comes last, below the others, or is folded. */
function drawEntry(type, value, within, view, { handle, front, tools, place, beside, indent = 0 }) {
  const isLine = isCompact(type, value);
  const name = pointer(within.path);
  const isIn = !isLine && isFolded(pointer(place.path), name, beside, view);
  const fold = isLine ? null : foldButton(name, isIn, within.label, titleOf(type, value), keyOf(within, "fold"), view, kindOf(type, value));
  const content = isIn ? null : element("div", { class: "control" }, drawValue(type, value, within, view));
  const all = tools && element("span", { class: "tools" }, ...tools);
  const parts = isLine ? [handle, front, content, all] : [handle, fold, front, all, content];
  const entry = element("li", { class: `entry ${sharing(type)} ${isLine ? "compact" : "wide"}`, "data-place": pointer(within.path) }, ...parts);
  if (isIn) entry.classList.add("folded");
  if (indent) entry.dataset.depth = indent;
  return entry;
}

function addButton(label, key, press) {
  return element("button", { type: "button", "data-key": key, "aria-label": label, onclick: press }, "Add");
}

function handleOf(view, words, place, start) {
  if (!view.canEdit) return null;
  const grip = element("span", { class: "handle", title: words, "aria-hidden": "true" }, "⠿");
  grip.addEventListener("pointerdown", (event) => view.drag(event, start, pointer(place.path)));
  return grip;
}

/** A list. Its items are moved by buttons, and by dragging their handles. */
export function drawList(type, value, place, view, tools) {
  const count = value.length;
  const shown = filtered(value, place, view, (it, text) => hasText(type.inner, it, text));
  const { toEnd, toStart } = endButtons(shown.length, place, pointer(place.path), keyOf, view);
  const add = () => { show(count, [count], place, view); view.send(place, [{ ins: 1 }], { isFree: true, into: pointer([...place.path, count]) }); };
  headOf(shown.map((it) => ({ type: type.inner, value: value[it], path: [it] })), count, place, view, ["item", "items"], tools, toEnd);
  if (view.canEdit) tools.append(addButton(`${place.label}: add an item`, keyOf(place, "add"), add));
  const list = element("ol", { class: "entries", "data-list": pointer(place.path) });
  const draw = (at) => drawItem(type.inner, value[shown[at]], shown[at], { count, beside: shown.length }, place, view);
  fillList(list, shown.length, draw, pointer(place.path), view);
  return element("div", { class: "list" }, tools.parentNode ? null : tools, list, toStart);
}

function drawItem(type, value, number, { count, beside }, place, view) {
  const within = inside(place, ["mod", number], [number], `item ${number}`);
  const move = (to, role) => {
    turnTo(to, pointer(place.path), view);
    carryFolds(view.folds, pointer(place.path), number, to);
    view.send(place, [{ move: [number, to] }], { key: keyOf({ path: [...place.path, to] }, role) });
  };
  const key = (role) => keyOf(within, role);
  const remove = () => {
    carryFolds(view.folds, pointer(place.path), number, count - 1);
    view.send(place, removeItem(number, count), { key: key("remove"), into: pointer(place.path) });
  };
  const tools = view.canEdit ? [
    signButton("↑", `${within.label}: move up`, key("up"), () => move(number - 1, "up"), number === 0),
    signButton("↓", `${within.label}: move down`, key("down"), () => move(number + 1, "down"), number === count - 1),
    signButton("✕", `${within.label}: remove`, key("remove"), remove),
  ] : null;
  const drop = (target) => view.send(place, [{ move: [number, target.number] }], { into: pointer([...place.path, target.number]) });
  const handle = handleOf(view, "Drag to move this item", place, { drop });
  const front = isCompact(type, value) ? null : element("span", { class: "count" }, `item ${number}`);
  const entry = drawEntry(type, value, within, view, { handle, front, tools, place, beside });
  entry.dataset.number = number;
  return entry;
}

/** A keyed map. A key is changed where it stands, which renames it. */
export function drawKeyed(type, value, place, view, tools) {
  const has = ([key, inner], text) => key.toLowerCase().includes(text) || hasText(type.inner, inner, text);
  const shown = filtered(value, place, view, has).map((it) => value[it]);
  const { toEnd, toStart } = endButtons(shown.length, place, pointer(place.path), keyOf, view);
  headOf(shown.map(([key, it]) => ({ type: type.inner, value: it, path: [key] })), value.length, place, view, ["key", "keys"], tools, toEnd);
  const list = element("ol", { class: "entries keyed" });
  fillList(list, shown.length, (at) => drawKey(type.inner, ...shown[at], shown.length, place, view), pointer(place.path), view);
  const added = view.canEdit ? drawNewKey(place, view) : null;
  return element("div", { class: "list" }, tools.parentNode ? null : tools, list, toStart, added);
}

function drawKey(type, key, value, beside, place, view) {
  const within = inside(place, ["mod", key], [key], `key ${key}`);
  const rename = (to, base) => view.send(place, [{ rename: [key, to] }], { base, typed: to, key: keyOf({ path: [...place.path, to] }, "key") });
  const name = element("input", {
    type: "text", class: "key", "aria-label": `${within.label}: its name`, "data-key": keyOf(within, "key"), autocomplete: "off", spellcheck: "false",
    ...typedInto(view, key, rename),
  });
  const remove = () => view.send(place, [{ drop: key }], { into: pointer(place.path) });
  const tools = view.canEdit ? [signButton("✕", `${within.label}: remove`, keyOf(within, "remove"), remove)] : null;
  return drawEntry(type, value, within, view, { front: name, tools, place, beside });
}

function drawNewKey(place, view) {
  const label = `${place.label}: a new key`;
  const name = element("input", {
    type: "text", "aria-label": label, placeholder: "a new key", "data-key": keyOf(place, "new-key"), autocomplete: "off", spellcheck: "false",
  });
  const add = () => {
    show(null, [name.value], place, view);
    view.send(place, [{ put: name.value }], { typed: name.value, into: pointer([...place.path, name.value]) });
  };
  name.addEventListener("keydown", (event) => event.key === "Enter" && add());
  return element("div", { class: "new-key" }, name, addButton(`${place.label}: add the key`, keyOf(place, "add"), add));
}

/** A tree, as a list of its nodes with their depths. */
export function drawTree(type, value, place, view, tools) {
  const nodes = nodesOf(value.map(([depth]) => depth));
  const byPath = new Map(nodes.map((it) => [it.path.join("."), it]));
  const numbers = filtered(value, place, view, ([, inner], text) => hasText(type.inner, inner, text));
  const shown = view.filter ? numbers.map((it) => nodes[it]) : unfolded(nodes, place, view);
  const { toEnd, toStart } = endButtons(shown.length, place, pointer(place.path), keyOf, view);
  const contents = shown.map((it) => ({ type: type.inner, value: value[it.number][1], path: ["items", it.number] }));
  headOf(contents, nodes.length, place, view, ["node", "nodes"], tools, toEnd);
  const list = element("ol", { class: "entries tree", "data-list": pointer(place.path) });
  const draw = (at) => drawNode(type.inner, value[shown[at].number][1], shown[at], byPath, shown.length, place, view);
  fillList(list, shown.length, draw, pointer(place.path), view);
  return element("div", { class: "list" }, tools.parentNode ? null : tools, list, toStart);
}

const branchOf = (node, place) => `${pointer([...place.path, "items", node.number])}|branch`;

/** The nodes that no folded node is above. */
function unfolded(nodes, place, view) {
  let above = Infinity;
  return nodes.filter((it) => {
    if (it.depth > above) return false;
    above = it.children && view.folds.get(branchOf(it, place)) ? it.depth : Infinity;
    return true;
  });
}

function branchButton(node, within, place, view) {
  if (!node.children || view.filter) return null;
  const name = branchOf(node, place);
  const isIn = view.folds.get(name) ?? false;
  const press = () => { view.folds.set(name, !isIn); view.redraw(); };
  const label = `${within.label}: the nodes below it`;
  const button = signButton(isIn ? "▸" : "▾", label, keyOf(within, "branch"), press);
  button.setAttribute("aria-expanded", String(!isIn));
  return button;
}

function drawNode(type, value, node, byPath, beside, place, view) {
  const words = node.path.length ? `node ${node.path.join(".")}` : "the root";
  const within = inside(place, ["mod", node.path], ["items", node.number], words);
  const drop = (target) => view.hang(place, node.path, target.path);
  const handle = node.path.length ? handleOf(view, "Drag onto another node, to hang it below", place, { drop }) : null;
  const front = branchButton(node, within, place, view);
  const tools = view.canEdit ? nodeTools(node, byPath, within, place, view) : null;
  const entry = drawEntry(type, value, within, view, { handle, front, tools, place, beside, indent: node.depth });
  entry.dataset.node = JSON.stringify(node.path);
  return entry;
}

function nodeTools(node, byPath, within, place, view) {
  const { path } = node;
  const siblings = (of) => byPath.get(of.slice(0, -1).join("."))?.children ?? 1;
  const at = path[path.length - 1];
  const send = (word, focus = {}) => () => view.send(place, word(), { into: pointer(place.path), ...focus });
  const key = (role) => keyOf(within, role);
  const label = (what) => `${within.label}: ${what}`;
  const add = signButton("+", label("add a child"), key("graft"), send(() => [{ graft: path }], { key: key("graft") }));
  if (!path.length) return [add];
  const shift = (to) => () => [{ shift: [path.slice(0, -1), at, to] }];
  return [
    add,
    signButton("↑", label("move up"), key("up"), send(shift(at - 1)), at === 0),
    signButton("↓", label("move down"), key("down"), send(shift(at + 1)), at === siblings(path) - 1),
    signButton("→", label("hang below the one before it"), key("nest"), send(() => nestNode(path)), at === 0),
    signButton("←", label("move beside its parent"), key("lift"), send(() => liftNode(path, siblings(path.slice(0, -1)))), path.length < 2),
    signButton("✕", label("remove with all below it"), key("remove"), send(() => removeNode(path, siblings(path)))),
  ];
}
