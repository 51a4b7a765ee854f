// Rows of one height, of which those in sight alone are drawn: a box with very many of them is scrolled as one with few.

import { element } from "./elements.js";

/** So many rows are drawn above and below those in sight. */
const MORE = 20;

/** The rows of a box that scrolls. `draw` makes the element of the row with a number. */
export class Rows {
  constructor(box, draw) {
    this.box = box;
    this.draw = draw;
    this.count = 0;
    this.height = 0;
    this.above = element("div", { role: "presentation" });
    this.below = element("div", { role: "presentation" });
    this.box.addEventListener("scroll", () => this.paint());
    new ResizeObserver(() => this.paint()).observe(box);
  }

  /** Draws anew, with so many rows. */
  show(count) {
    this.count = count;
    this.from = this.to = null;
    this.paint();
  }

  paint() {
    if (!this.height) this.measure();
    if (!this.height) return;
    const first = Math.floor(this.box.scrollTop / this.height);
    const from = Math.max(0, Math.min(first - MORE, this.count - 1));
    const to = Math.min(this.count, first + Math.ceil(this.box.clientHeight / this.height) + MORE);
    if (from === this.from && to === this.to) return;
    [this.from, this.to] = [from, to];
    const rows = [];
    for (let number = from; number < to; number += 1) rows.push(this.draw(number));
    this.above.style.height = `${from * this.height}px`;
    this.below.style.height = `${(this.count - to) * this.height}px`;
    this.box.replaceChildren(this.above, ...rows, this.below);
  }

  measure() {
    if (!this.count) {
      this.box.replaceChildren();
      return;
    }
    this.box.replaceChildren(this.draw(0));
    this.height = this.box.firstChild.getBoundingClientRect().height;
  }

  /** Scrolls as little as brings a row into sight. */
  reach(number) {
    const [top, bottom] = [number * this.height, (number + 1) * this.height];
    if (top < this.box.scrollTop) this.box.scrollTop = top;
    else if (bottom > this.box.scrollTop + this.box.clientHeight) this.box.scrollTop = bottom - this.box.clientHeight;
    this.paint();
  }
}
