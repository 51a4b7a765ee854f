// A client in Node: follows a document, edits it when it is told to, and writes each copy. `follow.mjs ADDRESS TOKEN NAME SIDE`

import { createInterface } from "node:readline";
import { Client } from "../clients/javascript/editlens_client.js";
import { readJson, writeJson } from "../clients/javascript/editlens_json.js";

const [address, token, name, side] = process.argv.slice(2);
const client = new Client(address, token);
client.waits = (pending) => console.log(writeJson({ waiting: pending.size }));
const document = client.pair(name, side);
document.follow((copy, number) => console.log(writeJson({ copy, number })));
for await (const line of createInterface({ input: process.stdin })) {
  document.edit(readJson(line)).then(
    (answer) => console.log(writeJson({ answer: answer.number, pending: client.pending.size })),
    (why) => console.log(writeJson({ refused: why.problem?.cause ?? why.message })),
  );
}
document.close();
