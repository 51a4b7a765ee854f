// Calls of the service, in place of those of the desk's own server. The token is in the address, behind #token=, which browsers do not send.

import { Client, Refusal } from "./editlens_client.js";
import { writeJson } from "./words.js";

const [, address, name] = /^(.*)\/pairs\/([^/]+)\/desk\//.exec(location.pathname);
const token = new URLSearchParams(location.hash.slice(1)).get("token");
const client = new Client(location.origin + address, token);
const path = (rest) => `/pairs/${name}${rest}`;

// What the page says of a desk that is on one machine does not hold here.
document.querySelectorAll(".local").forEach((it) => it.remove());

/** The refusal of the service, as the page shows it. */
function refusal(why, side, edit) {
  if (!(why instanceof Refusal)) {
    return { ok: false, cause: "failed", sentence: `The service does not answer: ${why.message}` };
  }
  const { problem, status } = why;
  if (status === 412 && problem.cause !== undefined) {
    const lost = problem.lost?.map((it) => `${side}: ${it}`);
    return { ok: false, cause: problem.cause, version: problem.newest, sentence: problem.why ?? problem.detail, lost, since: [], side, edit };
  }
  if (status === 412) {
    const sentence = "The documents changed after you began this, so it was not done.";
    return { ok: false, cause: "stale", version: problem.newest, sentence, since: [] };
  }
  if (status !== 422 || problem.at === undefined) {
    return { ok: false, cause: problem.cause ?? "failed", place: null, sentence: problem.detail ?? problem.title, side, edit };
  }
  const sentence = problem.found === undefined ? problem.why : `${problem.why}; it is ${problem.found}`;
  return { ok: false, cause: problem.cause, at: problem.at, place: problem.place ?? null, allowed: problem.allowed, sentence, side, edit };
}

/** What a window draws. */
export async function stateAt() {
  try {
    return await client.ask("GET", path("/desk/state"));
  } catch (why) {
    return refusal(why);
  }
}

/** A call with a body, whose numbers may be whole numbers of 64 bits. */
export async function call(what, body) {
  const expected = body.base?.text ?? body.base;
  const edit = body.edit === undefined ? undefined : writeJson(body.edit);
  try {
    if (what === "edit") return done(await client.change("POST", path(`/${body.side}/edits`), "application/x-ndjson", edit, { expected }));
    if (what === "undo") return done(await client.change("POST", path("/undo"), "application/json", "{}", { expected }));
    if (what === "check") return await client.ask("POST", path("/check"), { "Content-Type": "application/json" }, JSON.stringify(body));
    const answer = await client.change("POST", path("/program"), "application/json", JSON.stringify({ program: body.program }), { expected });
    return { ...done(answer), notices: answer.lines };
  } catch (why) {
    return refusal(why, body.side, edit);
  }
}

const done = (answer) => ({ ok: true, version: answer.number });

/** Calls `changed` whenever there is something new, and `connected` with whether the service is there. */
export async function follow(changed, connected) {
  for await (const event of client.pair(decodeURIComponent(name), "left").events(null, connected)) {
    if (event.kind === "end") return;
    changed();
  }
}
