'use strict';
// The values of the two addons: a value of another kind is refused, the memory that they hold is counted, and a buffer that cannot be had raises.
const assert = require('node:assert');
const sessions = require(process.env.EDITLENS_ADDON || './editlens.node');
const hubs = require(process.env.EDITLENS_HUB_ADDON || './editlens_hub.node');

const program = Buffer.from('main {note ~ body: id text}\n');
const line = Buffer.from('{"side":"left","edit":[]}');
const [OPEN, IMPORT_LEFT] = [0, 2];

// Another kind of value.
const session = sessions.open(OPEN, program);
const hub = hubs.open(program);
for (const other of [hub, {}, 7, null, undefined, 'text', Buffer.alloc(64)]) {
  assert.throws(() => sessions.step(other, line), /closed/);
  assert.throws(() => sessions.status(other), /closed/);
  assert.throws(() => sessions.show(other, 0), /closed/);
  assert.throws(() => sessions.close(other), /no session/);
}
for (const other of [session, {}, undefined]) {
  assert.throws(() => hubs.step(other, line), /closed/);
  assert.throws(() => hubs.status(other), /closed/);
  assert.throws(() => hubs.show(other, 0, 0), /closed/);
  assert.throws(() => hubs.close(other), /no hub/);
}
assert.strictEqual(sessions.status(session).status, 0);
assert.strictEqual(hubs.status(hub).status, 0);
sessions.close(session);
sessions.close(session);
hubs.close(hub);
assert.throws(() => sessions.status(session), /closed/);
assert.throws(() => hubs.status(hub), /closed/);

// What is counted: Node collects sessions that nothing refers to before they hold much, though each is a small value to it.
const large = Buffer.from(JSON.stringify({note: 'x'.repeat(500000)}));
let collected = 0;
const registry = new FinalizationRegistry(() => { collected += 1; });

async function areCollected() {
  for (let i = 0; i < 400 && collected < 100; i += 1) {
    registry.register(sessions.open(IMPORT_LEFT, program, large));
    await new Promise((done) => setImmediate(done));
  }
  assert(collected >= 100, `${collected} were collected while 400 were opened`);
}

// A buffer that cannot be had.
if (process.env.EDITLENS_REFUSED_ADDON) {
  const refused = require(process.env.EDITLENS_REFUSED_ADDON);
  const value = refused.open(OPEN, program);
  assert.throws(() => refused.status(value), /memory ran out/);
  assert.throws(() => refused.step(value, line), /memory ran out/);
  refused.close(value);
}

areCollected().then(() => console.log('values'));
