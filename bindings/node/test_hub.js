'use strict';
// Hubs: cases of whole runs against their stored answers, also with a hub that is resumed after each line, parts, and refusals.
const assert = require('node:assert');
const fs = require('node:fs');
const path = require('node:path');
const {Hub, EditlensHubError} = require('./hub.js');

/** What `editlens hub` writes for a script, by a hub; or by many, each of which takes one line, and the next goes on from its texts. */
function report(script, isResumed) {
  const lines = script.split('\n');
  const at = lines.findIndex((it) => it === '---' || it === '---\r');
  const programs = at < 0 ? script : lines.slice(0, at).map((it) => it + '\n').join('');
  let hub;
  try {
    hub = new Hub(programs);
  } catch (error) {
    assert(error instanceof EditlensHubError && error.status === 'program-refused');
    return error.message + '\n';
  }
  const journal = at < 0 ? [] : lines.slice(at + 1);
  let text = '';
  let number = 0;
  for (const each of journal) {
    const {line} = hub.step(each);
    number += line !== '';
    text += isResumed ? line.replace(/^(\w+) 1 /, `$1 ${number} `) : line;
    if (isResumed) {
      const shown = hub.show('state');
      const next = new Hub(programs, hub.texts());
      hub.close();
      hub = next;
      assert.strictEqual(hub.show('state'), shown);
    }
  }
  text += hub.show('state');
  hub.close();
  return text;
}

const files = ['hub', 'hub_rows'].map((it) => path.join(__dirname, '..', '..', 'crates', 'case_commands', 'data', `${it}.cases`));
const data = Buffer.concat(files.map((it) => fs.readFileSync(it)));
let at = 0;
let tried = 0;
while (at < data.length) {
  const end = data.indexOf(10, at);
  const step = JSON.parse(data.subarray(at, end));
  const given = data.subarray(end + 1, end + 1 + step.input);
  const wanted = data.subarray(end + 1 + step.input, end + 1 + step.input + step.output);
  if (Buffer.from(given.toString()).equals(given)) {
    assert.strictEqual(report(given.toString(), false), wanted.toString());
    assert.strictEqual(report(given.toString(), true), wanted.toString());
    tried += 1;
  }
  at = end + 2 + step.input + step.output;
}
// (most scripts of hub.cases have a comment that is no UTF-8)
assert(tried >= 60, `${tried}`);

const programs = ['main {hours ~ time: id int, left done: bool}', 'main {hours ~ all: id int, done ~ ready: id bool}'];
const hub = new Hub(programs);
hub.step('{"at":1,"edit":[{"at":["all",[{"set":8}]]}]}');
assert.strictEqual(hub.show('document'), '{"done":false,"hours":8}');
assert.strictEqual(hub.show('view', 0), '{"time":8}');
assert.strictEqual(typeof hub.show('complement', 1), 'string');
assert.strictEqual(hub.show('view', 2), undefined);
assert.deepStrictEqual(hub.step('{"at":2,"edit":[]}'), {accepted: false, line: 'refused 2 no-view\n', cause: 61, at: 0});
assert.throws(() => hub.step('a\nb'), {status: 'line-feed'});
assert.throws(() => hub.show('none'), {status: 'unknown-part'});
assert.throws(() => new Hub(['main id int', 'main id text']), {status: 'program-refused', cause: 63, view: 1});
assert.throws(() => new Hub(['main id int', 'main id text'], ['{}']), {status: 'program-refused', cause: 63, view: 1});

const texts = hub.texts();
const [document, first, complement, second, other] = texts;
assert.deepStrictEqual([document, first, second, texts.length], ['{"done":false,"hours":8}', '{"time":8}', '{"all":8,"ready":false}', 5]);
const again = new Hub(programs, texts);
assert.deepStrictEqual([again.texts(), again.show('state')], [texts, hub.show('state')]);
assert.strictEqual(again.step('{"at":"hub","edit":[]}').line, 'ok 1 [] [[],[]]\n');
for (const [given, cause, view] of [
  [texts.slice(1), 64, 0],
  [[...texts, other], 64, 0],
  [['{}', first, complement, second, other], 65, 0],
  [[document, first, complement, first, other], 66, 1],
  [[document, first, '7', second, other], 42, 0],
  [[document, first, complement, second, complement], 42, 1],
  [[document, '{"time":9}', complement, second, other], 44, 0],
  [['{"done":true,"hours":8}', first, complement, second, other], 44, 1],
]) {
  assert.throws(() => new Hub(programs, given), {name: 'EditlensHubError', message: 'state-refused', status: 'state-refused', cause, view, at: 0});
}
hub.close();
assert.throws(() => hub.step('{}'), /closed/);
console.log(`${tried} cases`);
