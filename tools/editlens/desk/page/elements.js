// Elements of the page. Each text becomes a text node, so nothing of a document is ever read as HTML.

/** An element with attributes and contents. A null attribute is left out, and so is a null content. */
export function element(name, attributes = {}, ...contents) {
  const made = document.createElement(name);
  for (const [key, value] of Object.entries(attributes)) {
    if (value === null || value === undefined || value === false) continue;
    if (key.startsWith("on")) made.addEventListener(key.slice(2), value);
    else if (key === "value" || key === "checked" || key === "disabled" || key === "readOnly") made[key] = value;
    else made.setAttribute(key, value);
  }
  made.append(...contents.filter((it) => it !== null && it !== undefined));
  return made;
}

/** A button with a sign, and with what it does in words. */
export function signButton(sign, words, key, press, disabled = false) {
  const face = element("span", { "aria-hidden": "true" }, sign);
  return element("button", { type: "button", class: "sign", "aria-label": words, title: words, "data-key": key, disabled, onclick: press }, face);
}

/** The element of the page with a name. */
export const byId = (name) => document.getElementById(name);
