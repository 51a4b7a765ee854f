// A client of the service, for browsers and for Node from version 18 on. It wants nothing but `fetch`.
//
//     import { Client } from "./editlens_client.js";
//     const plan = new Client("http://127.0.0.1:8080", token).pair("tasks", "left");
//     plan.follow((document, number) => { form.hours.value = document.hours; });
//     form.hours.onchange = () => plan.edit([{ at: ["hours", [{ set: Number(form.hours.value) }]] }]);
//
// `follow` keeps a copy by the changes alone, and goes on after a lost connection. The copy has what is stored, and no edit before that.
//
// `pending` has the edits that are not answered yet, in their order, and `waits` is called whenever it changes. They have an
// Idempotency-Key each, and are sent again until they are answered, so each is made once. Those of one pair are sent one after another.
// `patience` says how long one is sent again where no answer comes; with `Infinity` edits that were made without a network wait for it.
//
// Whole numbers that JavaScript cannot hold are BigInt.

import { act, readType } from "./editlens_act.js";
import { readJson, writeJson } from "./editlens_json.js";

const PAUSES = [50, 100, 200, 500, 1000];
const AGAIN = new Set([408, 425, 429, 502, 503, 504]);
const SILENCE = 40_000;

/** A key that no other edit has. Node 18 has no `crypto`, and a page that came over plain HTTP no `randomUUID`. */
const freshKey = () => {
  const bytes = new Uint8Array(16);
  if (globalThis.crypto) globalThis.crypto.getRandomValues(bytes);
  else bytes.forEach((_, at) => { bytes[at] = Math.floor(256 * Math.random()); });
  return Array.from(bytes, (byte) => byte.toString(16).padStart(2, "0")).join("");
};

const pause = (turn) => new Promise((resolve) => setTimeout(resolve, PAUSES[Math.min(turn, PAUSES.length - 1)]));

/** A request that the service refuses. `problem` is its body. */
export class Refusal extends Error {
  constructor(status, problem) {
    super(`${status}: ${problem.detail ?? problem.title ?? "refused"}`);
    this.status = status;
    this.problem = problem;
  }
}

/** No answer came in time. A change that was sent is stored or not; sent again with its key it is stored once. */
export class Lost extends Error {}

async function treeOf(response) {
  const text = await response.text();
  let tree = {};
  try {
    tree = text === "" ? null : readJson(text);
  } catch (why) {
    if (response.ok) throw why;
    tree = { detail: text.slice(0, 200) };
  }
  if (!response.ok) throw new Refusal(response.status, tree ?? {});
  return tree;
}

/** The service at an address. `patience` is how many milliseconds it tries again where no answer comes. */
export class Client {
  constructor(address, token = null, patience = 30_000) {
    this.address = address.replace(/\/$/, "");
    this.token = token;
    this.patience = patience;
    this.pending = new Map();
    this.turns = new Map();
    this.waits = () => {};
  }

  /** A side of a pair. */
  pair(name, side) {
    return new Document(this, `/pairs/${encodeURIComponent(name)}`, `/${side}`, side);
  }

  /** The document of a hub, or the view with a number. */
  hub(name, view = null) {
    return new Document(this, `/hubs/${encodeURIComponent(name)}`, view === null ? "/hub" : `/views/${view}`, view === null ? "hub" : String(view));
  }

  /** Makes a pair of a program, and of `left`, `right`, both or none. */
  make(name, program, more = {}) {
    return this.change("PUT", `/pairs/${encodeURIComponent(name)}`, "application/json", writeJson({ program, ...more }));
  }

  /** Takes the last changes of a pair back. */
  undo(name, count = 1) {
    return this.change("POST", `/pairs/${encodeURIComponent(name)}/undo`, "application/json", JSON.stringify({ count }));
  }

  /** Sends a request, again where no answer comes, and returns the tree of the response. */
  async ask(method, path, headers = {}, body = undefined) {
    return treeOf(await this.send(method, path, headers, body));
  }

  /**
   * Sends a request that changes something, behind those of its pair. `expected` is the number of the state that it is made for: an edit and
   * a patch are carried from there to the newest state, or refused. A `strict` one is refused unless that state is the newest.
   */
  async change(method, path, kind, body, { expected = null, key = freshKey(), strict = false } = {}) {
    const headers = { "Content-Type": kind, "Idempotency-Key": key, ...(expected === null ? {} : { "If-Match": `"${expected}"` }) };
    if (strict) headers.Prefer = "handling=strict";
    this.pending.set(key, { method, path, body });
    this.waits(this.pending);
    try {
      return await this.inTurn(path.split("/").slice(0, 3).join("/"), () => this.ask(method, path, headers, body));
    } finally {
      this.pending.delete(key);
      this.waits(this.pending);
    }
  }

  /** Makes a call when those before it have ended, well or not. */
  inTurn(name, call) {
    const made = (this.turns.get(name) ?? Promise.resolve()).then(call);
    const ended = made.catch(() => {}).then(() => this.turns.get(name) === ended && this.turns.delete(name));
    this.turns.set(name, ended);
    return made;
  }

  headers(more) {
    return this.token ? { Authorization: `Bearer ${this.token}`, ...more } : more;
  }

  async send(method, path, headers, body) {
    const end = Date.now() + this.patience;
    for (let turn = 0; ; turn += 1) {
      let why;
      try {
        const response = await fetch(this.address + path, { method, headers: this.headers(headers), body, signal: AbortSignal.timeout(SILENCE) });
        if (!AGAIN.has(response.status)) return response;
        why = `${response.status}`;
      } catch (fault) {
        why = fault.message;
      }
      if (Date.now() > end) throw new Lost(why);
      await pause(turn);
    }
  }
}

/** A document of a pair or a hub. */
export class Document {
  constructor(client, above, place, name) {
    this.client = client;
    this.above = above;
    this.path = above + place;
    this.name = name;
    this.isClosed = false;
  }

  /** The document with the number of its state. */
  async read() {
    const response = await this.client.send("GET", this.path, {});
    const document = await treeOf(response);
    return { document, number: Number(response.headers.get("ETag").replaceAll('"', "")) };
  }

  /** Sends an edit, and returns its answer. A refused one is raised as Refusal. */
  edit(edit, more = {}) {
    return this.client.change("POST", `${this.path}/edits`, "application/x-ndjson", writeJson(edit), more);
  }

  /** Sends a JSON Patch. */
  patch(patch, more = {}) {
    return this.client.change("PATCH", this.path, "application/json-patch+json", writeJson(patch), more);
  }

  /** Ends what follows this document. */
  close() {
    this.isClosed = true;
    this.abort?.abort();
  }

  /** Keeps a copy, and calls `changed` with the document and its number: now, and after each change. It returns when the document is removed. */
  async follow(changed, connected = () => {}) {
    let copy = await this.copy();
    changed(copy.document, copy.number);
    for (;;) {
      let isWhole = true;
      for await (const { kind, data } of this.events(copy.number, connected)) {
        if (kind === "end") return;
        if (kind === "change" && data.number <= copy.number) continue;
        isWhole = kind === "change" && data.number === copy.number + 1;
        if (!isWhole) break;
        copy.document = act(copy.type, copy.document, data.edit);
        copy.number = data.number;
        changed(copy.document, copy.number, data);
      }
      if (this.isClosed) return;
      if (!isWhole) {
        copy = await this.copy();
        changed(copy.document, copy.number);
      }
    }
  }

  async copy() {
    const { types } = await this.client.ask("GET", this.above);
    return { type: readType(types[this.name]), ...(await this.read()) };
  }

  /** The events behind a number, or from now on. It goes on after a lost connection, by the number of the last event. */
  async *events(after, connected = () => {}) {
    let last = after;
    for (let turn = 0; !this.isClosed; turn += 1) {
      try {
        for await (const event of this.stream(last, connected)) {
          turn = 0;
          if (event.data.number !== undefined) last = event.data.number;
          yield event;
          if (event.kind === "end") return;
        }
      } catch (why) {
        if (why instanceof Refusal && !AGAIN.has(why.status)) throw why;
      }
      connected(false);
      if (!this.isClosed) await pause(turn);
    }
  }

  async *stream(after, connected) {
    this.abort = new AbortController();
    let silence = setTimeout(() => this.abort.abort(), SILENCE);
    try {
      const headers = this.client.headers(after === null ? {} : { "Last-Event-ID": String(after) });
      const response = await fetch(`${this.client.address}${this.path}/changes`, { headers, signal: this.abort.signal });
      if (!response.ok) await treeOf(response);
      connected(true);
      const reader = response.body.pipeThrough(new TextDecoderStream()).getReader();
      for (let rest = ""; ;) {
        const { done, value } = await reader.read();
        if (done) return;
        clearTimeout(silence);
        silence = setTimeout(() => this.abort.abort(), SILENCE);
        const parts = (rest + value).split("\n\n");
        rest = parts.pop();
        for (const part of parts) {
          const rows = Object.fromEntries(part.split("\n").filter((line) => /^[a-z]/.test(line)).map((line) => line.split(/: (.*)/s)));
          if (rows.data !== undefined) yield { kind: rows.event ?? "message", data: readJson(rows.data) };
        }
      }
    } finally {
      clearTimeout(silence);
      this.abort.abort();
    }
  }
}
