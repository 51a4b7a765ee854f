'use strict';
// editlens as a library in this process: a class over the addon editlens.node, which bindings/check builds from editlens.c.

const addon = require(process.env.EDITLENS_ADDON || './editlens.node');

// The numbers of editlens.h, and the kinds of opening of editlens.c, in their order. bindings/header compares them.
const STATUS = ['done', 'blank', 'refused', 'program-refused', 'state-refused', 'no-session', 'no-memory', 'small-buffer', 'line-feed', 'unknown-part', 'full',
  'records-refused', 'no-change', 'not-open'];
const PARTS = {state: 0, left: 1, complement: 2, right: 3, leftType: 4, rightType: 5, snapshot: 6, change: 7, undoLeft: 8, undoRight: 9};
const OPENINGS = ['open', 'resume', 'import-left', 'import-right', 'reopen'];
// The statuses of a line that was taken, or refused.
const ANSWERED = ['done', 'blank', 'refused'];

/** A call that did not do what it was asked. `status` is a name, and `cause`, `part` and `at` are the numbers of editlens.h. */
class EditlensError extends Error {
  constructor(answer) {
    const line = answer.text.toString().trimEnd();
    const status = STATUS[answer.status];
    super(status === 'program-refused' ? line : status);
    Object.assign(this, {name: 'EditlensError', status, cause: answer.cause, part: answer.part, at: answer.at});
  }
}

/** How a session is opened: the kind, and its texts. */
function opening(program, state) {
  if (state === undefined) return ['open', program];
  if (state.records) return ['reopen', state.records.map((it) => it + '\n').join('')];
  if (state.complement !== undefined) return ['resume', program, state.left, state.complement, state.right];
  return state.left !== undefined ? ['import-left', program, state.left] : ['import-right', program, state.right];
}

/**
 * Two documents that a lens keeps in step. `state` has the texts `left`, `complement` and `right` of a session before it; or `left` or `right`
 * alone, and the other document is made. `opening` is the record that a log gets before any other.
 */
class Session {
  #held;

  constructor(program, state) {
    const [kind, ...texts] = opening(program, state);
    this.#held = addon.open(OPENINGS.indexOf(kind), ...texts.map((it) => Buffer.from(it)));
    const answer = addon.status(this.#held);
    this.opening = answer.text.toString();
    if (STATUS[answer.status] !== 'done') {
      this.close();
      throw new EditlensError(answer);
    }
  }

  /** The session for which the records of a log stand: `opening`, and behind it `change` after each line that was accepted, and snapshots. */
  static reopen(records) {
    return new Session('', {records});
  }

  /** Takes a line of a journal, without its line feed. Returns whether it was accepted, the answer line, and the numbers of a refusal. */
  step(line) {
    const answer = addon.step(this.#held, Buffer.from(line));
    const status = STATUS[answer.status];
    if (!ANSWERED.includes(status)) throw new EditlensError(answer);
    return {accepted: status === 'done', line: answer.text.toString(), cause: answer.cause, part: answer.part, at: answer.at};
  }

  /**
   * A part of the state: `state`, `left`, `complement`, `right`, `leftType`, `rightType` or `snapshot`; or of the change that the last line was:
   * `change`, `undoLeft` or `undoRight`.
   */
  show(part) {
    const answer = addon.show(this.#held, PARTS[part] ?? 99);
    if (STATUS[answer.status] !== 'done') throw new EditlensError(answer);
    return answer.text.toString();
  }

  /** The texts from which another session can go on. */
  state() {
    return {left: this.show('left'), complement: this.show('complement'), right: this.show('right')};
  }

  /** Ends the session. One that is not closed ends when it is collected. */
  close() {
    addon.close(this.#held);
  }
}

module.exports = {Session, EditlensError};
