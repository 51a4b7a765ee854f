// Reads lines of a type, a document and an edit, and writes the document after the edit.

import { createInterface } from "node:readline";
import { act, readType } from "../clients/javascript/editlens_act.js";
import { readJson, writeJson } from "../clients/javascript/editlens_json.js";

for await (const line of createInterface({ input: process.stdin })) {
  const [type, document, edit] = readJson(line);
  console.log(writeJson(act(readType(type), document, edit)));
}
