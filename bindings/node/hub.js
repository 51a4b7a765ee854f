'use strict';
// A hub of editlens in this process: a class over the addon editlens_hub.node, which bindings/check builds from editlens_hub.c.

const addon = require(process.env.EDITLENS_HUB_ADDON || './editlens_hub.node');

// The numbers of editlens.h. bindings/header compares them.
const STATUS = ['done', 'blank', 'refused', 'program-refused', 'state-refused', 'no-hub', 'no-memory', 'small-buffer', 'line-feed', 'unknown-part', 'full',
  'records-refused', 'no-change', 'not-open'];
const PARTS = {state: 0, document: 1, view: 2, complement: 3};
// The statuses of a line that was taken, or refused.
const ANSWERED = ['done', 'blank', 'refused'];

/** A call that did not do what it was asked. `status` is a name, and `cause`, `view` and `at` are the numbers of editlens.h. */
class EditlensHubError extends Error {
  constructor(answer) {
    const status = STATUS[answer.status];
    super(status === 'program-refused' ? answer.text.toString().trimEnd() : status);
    Object.assign(this, {name: 'EditlensHubError', status, cause: answer.cause, view: answer.view, at: answer.at});
  }
}

/**
 * One document and its views, which lenses keep in step. `programs` are those of the views: a list of texts, or one text with a line `+++`
 * between them, as in a script of `editlens hub`. `state` has the texts that `texts` gave of a hub before it.
 */
class Hub {
  #held;

  constructor(programs, state) {
    const given = [Array.isArray(programs) ? programs.map((it) => (it.endsWith('\n') ? it : it + '\n')).join('+++\n') : programs];
    if (state !== undefined) given.push(state.map((it) => it + '\n').join(''));
    this.#held = addon.open(...given.map((it) => Buffer.from(it)));
    const answer = addon.status(this.#held);
    if (STATUS[answer.status] !== 'done') {
      this.close();
      throw new EditlensHubError(answer);
    }
  }

  /** Takes a line of a hub's journal, without its line feed. Returns whether it was accepted, the answer line, and the numbers of a refusal. */
  step(line) {
    const answer = addon.step(this.#held, Buffer.from(line));
    const status = STATUS[answer.status];
    if (!ANSWERED.includes(status)) throw new EditlensHubError(answer);
    return {accepted: status === 'done', line: answer.text.toString(), cause: answer.cause, at: answer.at};
  }

  /** A part of the state: `state` or `document`, or of the view with a number, from 0, `view` or `complement`. Undefined if there is no such view. */
  show(part, view = 0) {
    const answer = addon.show(this.#held, PARTS[part] ?? 99, view);
    const status = STATUS[answer.status];
    if (status === 'refused') return undefined;
    if (status !== 'done') throw new EditlensHubError(answer);
    return answer.text.toString();
  }

  /** The texts from which another hub can go on: of the hub's document, and for each view in order of its document and its complement. */
  texts() {
    const found = [this.show('document')];
    for (let view = 0; ; view += 1) {
      const document = this.show('view', view);
      if (document === undefined) return found;
      found.push(document, this.show('complement', view));
    }
  }

  /** Ends the hub. One that is not closed ends when it is collected. */
  close() {
    addon.close(this.#held);
  }
}

module.exports = {Hub, EditlensHubError};
