// What the documents of a page are called. A pair has a left and a right one; a hub has its own, on the left side, and a view on the right.

import { byId } from "./elements.js";

const PAIR = { left: "left", right: "right" };

/** The short names of both sides. */
export const namesOf = (state) => (state.hub ? { left: "hub", right: `view ${state.hub.view}` } : PAIR);

/** A document by its short name, in a sentence. */
export const the = (name) => (name === "hub" ? "the hub" : name in PAIR ? `the ${name} document` : name);

const large = (text) => text[0].toUpperCase() + text.slice(1);

/** Names the parts of a side that stand in the page from the beginning. */
export function callSide(side, name) {
  const title = large(the(name).replace(/^the (?!hub)/, ""));
  const section = byId(side);
  byId(`${side}-title`).textContent = title;
  section.querySelector(".document").setAttribute("aria-label", title);
  section.querySelector(".filter").setAttribute("aria-label", `${title}: show only what has this text`);
  section.querySelector(".by-hand label").textContent = `An edit of ${the(name)}, as JSON`;
  section.querySelector(".by-hand button").textContent = `Send to ${the(name)}`;
}
