// Calls of the desk's server. The token is in the address of the page, so each path is relative to it.

import { writeJson } from "./words.js";

async function answered(request) {
  try {
    const said = await request;
    if (said.ok) return await said.json();
    return { ok: false, cause: "failed", sentence: `The desk refused the request: ${(await said.text()).trim()}` };
  } catch {
    return { ok: false, cause: "failed", sentence: "The desk does not answer. Is the program that printed the address still there?" };
  }
}

/** What a window draws: in a replay at a step, of a hub with a view, else what is new where a state of that view is known already. */
export function stateAt(step, known, view = null) {
  if (step !== null) return answered(fetch(`state?step=${step}`));
  const shown = view === null ? "" : `&view=${view}`;
  if (!known || view !== null && known.hub?.view !== view) return answered(fetch(`state?${shown}`));
  return answered(fetch(`state?session=${known.session}&version=${known.version}&complement=${known.complement?.version ?? ""}${shown}`));
}

/** The user's file of a side, with its version. */
export const fileOf = (side) => answered(fetch(`file?side=${side}`));

/** A call with a body, whose numbers may be whole numbers of 64 bits. */
export const call = (name, body) =>
  answered(fetch(name, { method: "POST", headers: { "Content-Type": "application/json" }, body: writeJson(body) }));

/** Calls `changed` whenever there is something new, and `connected` with whether the desk is there. */
export function follow(changed, connected) {
  const stream = new EventSource("events");
  stream.addEventListener("open", () => connected(true));
  stream.addEventListener("error", () => connected(false));
  stream.addEventListener("message", changed);
}
