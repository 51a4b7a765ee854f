// Dragging an item by its handle, with a pointer of any kind. The buttons beside each item do the same by keyboard.

/** Begins to drag the entry of a handle inside its container. `drop` gets the entry on which it ends. */
export function startDrag(event, root, list, drop) {
  const entry = event.target.closest(".entry");
  if (!entry || event.button !== 0) return;
  event.preventDefault();
  let target = null;
  const choose = (found) => {
    target?.classList.remove("drop-here");
    target = found;
    target?.classList.add("drop-here");
  };
  const move = (moved) => {
    const under = document.elementFromPoint(moved.clientX, moved.clientY);
    const found = [...root.querySelectorAll("[data-list]")].find((it) => it.dataset.list === list);
    let here = under?.closest(".entry") ?? null;
    while (here && here.parentElement !== found) here = here.parentElement.closest(".entry");
    choose(here === entry ? null : here);
  };
  const end = () => {
    document.removeEventListener("pointermove", move);
    document.removeEventListener("pointerup", release);
    document.removeEventListener("pointercancel", end);
    document.removeEventListener("keydown", escape);
    entry.classList.remove("dragged");
    choose(null);
  };
  const release = () => {
    const { number, node } = target?.dataset ?? {};
    end();
    if (number !== undefined) drop({ number: Number(number) });
    if (node !== undefined) drop({ path: JSON.parse(node) });
  };
  const escape = (pressed) => pressed.key === "Escape" && end();
  entry.classList.add("dragged");
  document.addEventListener("pointermove", move);
  document.addEventListener("pointerup", release);
  document.addEventListener("pointercancel", end);
  document.addEventListener("keydown", escape);
}
