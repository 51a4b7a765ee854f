// Sends edits for older states, by the client and by edits on their way: `late.mjs ADDRESS TOKEN NAME SIDE`. It reads lines, and answers each.
//
//   {"edit":EDIT,"expected":N,"strict":BOOL}     the answer, or the cause of the refusal
//   {"patch":PATCH,"expected":N}                 the same for a patch
//   {"pending":[EDIT,..],"number":N}             edits that a person made at state N: what is shown, and which were lost

import { createInterface } from "node:readline";
import { readType } from "../clients/javascript/editlens_act.js";
import { Client, Refusal } from "../clients/javascript/editlens_client.js";
import { readJson, writeJson } from "../clients/javascript/editlens_json.js";
import { PendingEdits } from "../clients/javascript/editlens_pending.js";

const [address, token, name, side] = process.argv.slice(2);
const client = new Client(address, token);
const document = client.pair(name, side);

async function told(sent) {
  try {
    return await sent;
  } catch (why) {
    if (!(why instanceof Refusal)) throw why;
    return { refused: why.problem.cause ?? null, status: why.status, why: why.problem.why ?? null };
  }
}

/** A person's edits that were made at the state `number`, with this document, while changes of others came. */
async function pending(words, number, shown) {
  const { types } = await client.ask("GET", `/pairs/${name}`);
  const lost = [];
  const connection = { offer: (offer) => { sending.push(send(offer)); } };
  const sending = [];
  const edits = new PendingEdits(readType(types[side]), number, shown, connection);
  async function send(offer) {
    const said = await told(document.edit(offer.word, { expected: offer.number, key: offer.ticket }));
    if (said.refused !== undefined) lost.push(...edits.refused(offer.ticket, said.refused));
  }
  words.forEach((word) => edits.edit(word));
  for await (const { kind, data } of document.events(number)) {
    if (kind === "change") lost.push(...edits.took(data.number, data.edit, data.entry.split("/").at(-2)));
    if (edits.waiting.length === 0 && edits.offered === null) break;
  }
  await Promise.all(sending);
  return { shown: edits.shown, number: edits.number, lost: lost.map((it) => [it.edit, it.cause, it.restsOn ?? null]) };
}

for await (const line of createInterface({ input: process.stdin })) {
  const { edit, patch, expected, strict, pending: words, number, document: shown } = readJson(line);
  const said = words ? pending(words, number, shown) : told(edit ? document.edit(edit, { expected, strict }) : document.patch(patch, { expected }));
  console.log(writeJson(await said));
}
process.exit(0);
