'use strict';
// The example of the tasks, refusals, a state that is resumed, and cases of whole runs against their stored answers.
const assert = require('node:assert');
const fs = require('node:fs');
const path = require('node:path');
const {Session, EditlensError} = require('./index.js');

const top = path.join(__dirname, '..', '..');
const small = 'main {hours ~ time: id int, left done: bool}\n';

/** What `editlens run` writes for a script, by a session. */
function report(script) {
  const lines = script.split('\n');
  const at = lines.findIndex((it) => it === '---' || it === '---\r');
  const program = at < 0 ? script : lines.slice(0, at).map((it) => it + '\n').join('');
  let session;
  try {
    session = new Session(program);
  } catch (error) {
    assert(error instanceof EditlensError && error.status === 'program-refused');
    return error.message + '\n';
  }
  const journal = at < 0 ? [] : lines.slice(at + 1);
  const text = journal.map((line) => session.step(line).line).join('') + session.show('state');
  session.close();
  return text;
}

const example = (name) => fs.readFileSync(path.join(top, 'examples', name), 'utf8');
assert.strictEqual(report(example('tasks.script')), example('tasks.out'));

const files = ['runs', 'groups', 'lenses', 'lenses_reference'];
const data = Buffer.concat(files.map((it) => fs.readFileSync(path.join(top, 'crates', 'case_commands', 'data', `${it}.cases`))));
let at = 0;
let tried = 0;
while (at < data.length && tried < 500) {
  const end = data.indexOf(10, at);
  const step = JSON.parse(data.subarray(at, end));
  const given = data.subarray(end + 1, end + 1 + step.input);
  const wanted = data.subarray(end + 1 + step.input, end + 1 + step.input + step.output);
  if (step.words.join() === 'run' && Buffer.from(given.toString()).equals(given)) {
    assert.strictEqual(report(given.toString()), wanted.toString());
    tried += 1;
  }
  at = end + 2 + step.input + step.output;
}
assert.strictEqual(tried, 500);

const session = new Session(small);
assert.deepStrictEqual(session.step('{"side":"right","edit":[{"at":["none",[{"set":8}]]}]}'),
  {accepted: false, line: 'refused 1 no-apply 0 place\n', cause: 2, part: 0, at: 0});
assert.throws(() => session.step('a\nb'), {status: 'line-feed'});
assert.throws(() => session.show('none'), {status: 'unknown-part'});
session.step('{"side":"left","edit":[{"at":["hours",[{"set":8}]]}]}');
const state = session.state();
assert.strictEqual(new Session(small, state).show('state'), session.show('state'));
assert.throws(() => new Session(small, {...state, right: '{"time":9}'}), {status: 'state-refused', cause: 44});
const records = [new Session(small).opening, session.show('change'), session.show('snapshot')];
assert.strictEqual(session.show('undoRight'), '[{"at":["time",[{"set":0}]]}]');
const again = Session.reopen(records);
assert.deepStrictEqual([again.show('state'), again.opening], [session.show('state'), '']);
assert.throws(() => again.show('change'), {status: 'no-change'});
assert.throws(() => Session.reopen([records[0], '{}']), {status: 'records-refused', cause: 51, at: 2});
assert.strictEqual(new Session(small, {right: '{"time":8}'}).show('left'), '{"done":false,"hours":8}');
assert.throws(() => new Session(small, {left: '{}'}), {status: 'state-refused', cause: 41});
session.close();
assert.throws(() => session.step('{}'), /closed/);
console.log(`${tried} cases`);
