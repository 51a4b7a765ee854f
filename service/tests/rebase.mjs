// Reads lines of edits that were made for older documents, or of what happens at a client, and writes what becomes of them.

import { createInterface } from "node:readline";
import { readType } from "../clients/javascript/editlens_act.js";
import { readJson, writeJson } from "../clients/javascript/editlens_json.js";
import { PendingEdits } from "../clients/javascript/editlens_pending.js";
import { NotCarried, bridgeOf, carry, flipped, then } from "../clients/javascript/editlens_rebase.js";

/** The words over the bridges of changes, one after another, each with the bridge that the word before left. */
function carriedWords(text, document, afters, changes, isFlipped, words, takesBack) {
  const type = readType(text);
  let bridge = changes.map((word, at) => bridgeOf(type, word, [document, ...afters][at])).reduce(then, { is: "same" });
  if (isFlipped) bridge = flipped(bridge);
  const found = [];
  for (const word of words) {
    try {
      const carried = carry(bridge, word, takesBack);
      found.push(carried.word);
      bridge = carried.bridge;
    } catch (why) {
      if (!(why instanceof NotCarried)) throw why;
      return [...found, { at: why.at, cause: why.cause, path: why.path, said: String(why) }];
    }
  }
  return found;
}

/** What a client shows, and what waits and is lost, after each of the events at it. */
function shownAt(text, number, document, events) {
  const offers = [];
  const client = new PendingEdits(readType(text), number, document, { offer: (it) => offers.push(it) });
  const ticketOf = (at) => (at === null ? null : offers[at].ticket);
  const calls = {
    again: () => client.again(),
    edit: (word) => client.edit(word),
    refused: (at, cause) => client.refused(ticketOf(at), cause),
    took: (at, word, own) => client.took(at, word, ticketOf(own)),
  };
  return events.map(([name, ...content]) => {
    const lost = calls[name](...content);
    const rows = Array.isArray(lost) ? lost.map((it) => [it.edit, it.cause, it.restsOn, it.sentence]) : [];
    const offered = client.offered && [client.offered.number, client.offered.word];
    return [client.shown, client.document, client.waiting.map((it) => [it.edit, it.word]), rows, offered, offers.length];
  });
}

const CALLS = { carry: carriedWords, pending: shownAt };
for await (const line of createInterface({ input: process.stdin })) {
  const [name, ...content] = readJson(line);
  console.log(writeJson(CALLS[name](...content)));
}
