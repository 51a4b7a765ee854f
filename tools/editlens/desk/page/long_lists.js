// Long lists, maps and trees. Those of their contents that are near what is in sight are drawn; the others are when they are scrolled to.

import { element } from "./elements.js";

/** So many contents are drawn at once. So many of them stand before those in sight. */
const MOST = 80;
const BEFORE = 20;
/** How high a content is taken to be before one was drawn, and how near to what is not drawn a person may scroll, in pixels. */
const GUESS = 36;
const NEAR = 120;

const gap = () => element("li", { class: "gap", role: "presentation", "aria-hidden": "true" });
const boxOf = (it) => it.getBoundingClientRect();

/** Fills the list of a container with its contents. `draw` makes the entry of the content with a number. */
export function fillList(list, count, draw, name, view) {
  if (count <= MOST) {
    view.longLists.delete(name);
    for (let number = 0; number < count; number += 1) list.append(draw(number));
    return;
  }
  const height = view.longLists.get(name)?.height ?? null;
  view.longLists.set(name, new LongList(list, count, draw, height, name, view));
}

/** Lets a content be drawn when its list is drawn the next time. */
export function turnTo(number, name, view) {
  const from = view.starts.get(name) ?? 0;
  if (number < from || number >= from + MOST) view.starts.set(name, number - BEFORE);
}

/** Buttons that lead to both ends of a long list, for its head and for its foot. */
export function endButtons(count, place, name, keyOf, view) {
  if (count <= MOST) return { toEnd: null, toStart: null };
  const button = (words, role, number) => {
    const press = () => view.longLists.get(name)?.reach(number);
    const label = `${place.label}: ${words.toLowerCase()}`;
    return element("button", { type: "button", "data-key": keyOf(place, role), "aria-label": label, onclick: press }, words);
  };
  return { toEnd: button("To the end", "page-last", count - 1), toStart: button("To the start", "page-first", 0) };
}

/** A list of which a part is drawn. In place of what is above and below, there is room of its height. */
class LongList {
  constructor(list, count, draw, height, name, view) {
    Object.assign(this, { list, count, draw, name, view, height: height ?? GUESS, isMeasured: height !== null });
    this.made = new Map();
    [this.above, this.below] = [gap(), gap()];
    list.append(this.above, this.below);
    this.show(view.starts.get(name) ?? 0);
  }

  /** Draws the contents from one on. An entry that is there already stays, with its focus. */
  show(start) {
    this.from = Math.max(0, Math.min(start, this.count - MOST));
    this.to = this.from + MOST;
    this.view.starts.set(this.name, this.from);
    for (const [number, entry] of this.made) {
      if (number >= this.from && number < this.to) continue;
      this.made.delete(number);
      entry.remove();
    }
    let before = this.above;
    for (let number = this.from; number < this.to; number += 1) {
      const entry = this.made.get(number) ?? this.drawn(number);
      if (!entry.parentNode) before.after(entry);
      before = entry;
    }
    this.makeRoom();
  }

  drawn(number) {
    const entry = this.draw(number);
    entry.setAttribute("aria-posinset", number + 1);
    entry.setAttribute("aria-setsize", this.count);
    this.made.set(number, entry);
    return entry;
  }

  /** Looks how high the contents are when the list is first in the page. Later that changes only where the scroll is set anew with it. */
  measure() {
    if (this.isMeasured || !this.list.isConnected) return;
    this.isMeasured = true;
    this.makeRoom();
  }

  makeRoom() {
    if (this.list.isConnected) this.height = (boxOf(this.below).top - boxOf(this.above).bottom) / MOST || this.height;
    this.above.style.height = `${this.from * this.height}px`;
    this.below.style.height = `${(this.count - this.to) * this.height}px`;
  }

  /** Draws what has come near to what is in sight of a box that was scrolled. Returns whether it did. */
  follow(root) {
    const sight = boxOf(root);
    const [top, end] = [boxOf(this.above).bottom, boxOf(this.below).top];
    const isOut = !this.list.isConnected || boxOf(this.list).bottom < sight.top || boxOf(this.list).top > sight.bottom;
    const isNear = (this.from > 0 && top > sight.top - NEAR) || (this.to < this.count && end < sight.bottom + NEAR);
    if (isOut || !isNear) return false;
    const { number, offset } = this.contentAt(sight.top, top, end);
    const before = this.from;
    this.show(number - BEFORE);
    if (this.from === before) return false;
    root.scrollTop += boxOf(this.made.get(number)).top - sight.top - offset;
    return true;
  }

  /** The content at a height of the window, and how far from it that one begins. */
  contentAt(height, top, end) {
    const bounded = (number) => Math.max(0, Math.min(number, this.count - 1));
    if (height < top) {
      const number = bounded(this.from - Math.ceil((top - height) / this.height));
      return { number, offset: top - (this.from - number) * this.height - height };
    }
    if (height >= end) {
      const number = bounded(this.to + Math.floor((height - end) / this.height));
      return { number, offset: end + (number - this.to) * this.height - height };
    }
    for (const number of [...this.made.keys()].sort((one, other) => one - other)) {
      const box = boxOf(this.made.get(number));
      if (box.bottom > height) return { number, offset: box.top - height };
    }
    return { number: this.from, offset: 0 };
  }

  /** Draws a content, brings it into sight and puts the focus there. */
  reach(number) {
    this.show(number - BEFORE);
    this.view.drewMore();
    const entry = this.made.get(number);
    entry.scrollIntoView({ block: "nearest" });
    entry.querySelector("input, select, textarea, button:not(:disabled)")?.focus({ preventScroll: true });
  }
}
