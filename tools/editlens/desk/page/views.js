// The views of a hub: a row of buttons, of which one is pressed. That view is shown beside the hub, and is the one that can be edited.

import { byId, element } from "./elements.js";

/** The row of the views of a hub. `choose` is called with the number of one. */
export class Views {
  constructor(choose) {
    this.choose = choose;
    this.row = byId("views");
    this.row.addEventListener("keydown", (event) => this.pressed(event));
  }

  draw(state) {
    this.row.hidden = !state.hub;
    document.querySelector("main").classList.toggle("hub", Boolean(state.hub));
    if (!state.hub) return;
    // The hub is in the middle, and so the view comes before it for the eye and for the keyboard.
    if (byId("right").nextElementSibling !== byId("left")) byId("left").before(byId("right"));
    const { view, views } = state.hub;
    const held = this.row.contains(document.activeElement) ? document.activeElement.value : null;
    this.row.replaceChildren(...views.map((it) => this.drawView(it, it.number === view)));
    if (held !== null) this.row.querySelector(`[value="${held}"]`)?.focus();
  }

  drawView({ number, about, changed }, isShown) {
    const mark = changed ? element("span", { class: "mark" }, "changed") : null;
    const press = () => this.choose(number);
    return element("button", { type: "button", value: number, "aria-pressed": String(isShown), onclick: press },
      element("span", { class: "view-name" }, `View ${number}`), element("span", { class: "view-about" }, about), mark);
  }

  /** The arrows lead from one button to the next. */
  pressed(event) {
    const step = { ArrowLeft: -1, ArrowRight: 1 }[event.key];
    const here = event.target.closest("button");
    if (!step || !here) return;
    const next = step > 0 ? here.nextElementSibling : here.previousElementSibling;
    next?.focus();
    event.preventDefault();
  }
}
