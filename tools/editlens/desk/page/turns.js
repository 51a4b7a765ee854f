// What the page has asked for: one thing after another, with a sign while any of them has no answer yet.

import { byId } from "./elements.js";

/** The things that were asked for. `last` is kept when each of them has its answer. `changed` is called with whether any has none yet. */
export class Turns {
  constructor(changed) {
    this.changed = changed;
    this.last = Promise.resolve();
    this.open = [];
  }

  /** Does a work behind those before it. `words` say what it is. One with the name of a work that has no answer yet is not begun. */
  take(words, name, work) {
    if (name !== null && this.open.some((it) => it.name === name)) return this.last;
    const one = { words, name };
    this.open.push(one);
    this.show();
    this.last = this.last.then(work).catch(reportError).then((said) => {
      this.open.splice(this.open.indexOf(one), 1);
      this.show();
      return said;
    });
    return this.last;
  }

  show() {
    const isBusy = this.open.length > 0;
    byId("busy").textContent = isBusy ? `${this.open[0].words} …` : "";
    document.body.classList.toggle("working", isBusy);
    for (const name of ["left", "right"]) byId(name).setAttribute("aria-busy", String(isBusy));
    this.changed(isBusy);
  }
}
