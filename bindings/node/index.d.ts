/** Two documents that a lens keeps in step, over the library of editlens. */

/** The texts from which another session can go on. */
export interface State {
  left: string;
  complement: string;
  right: string;
}

/** What a line came to: `line` is the answer, and the numbers of a refusal are those of editlens.h. */
export interface Step {
  accepted: boolean;
  line: string;
  cause: number;
  part: number;
  at: number;
}

/** A part of the state, or of the change that the last line was. */
export type Part = 'state' | 'left' | 'complement' | 'right' | 'leftType' | 'rightType' | 'snapshot' | 'change' | 'undoLeft' | 'undoRight';

/** A call that did not do what it was asked. `status` is a name, and `cause`, `part` and `at` are the numbers of editlens.h. */
export class EditlensError extends Error {
  readonly status: string;
  readonly cause: number;
  readonly part: number;
  readonly at: number;
}

export class Session {
  /** `state` has the texts of a session before it, or one document, and the other one is made. */
  constructor(program: string, state?: State | {left: string} | {right: string} | {records: string[]});
  /** The session for which the records of a log stand. */
  static reopen(records: string[]): Session;
  /** The record that a log gets before any other. */
  readonly opening: string;
  /** Takes a line of a journal, without its line feed. */
  step(line: string): Step;
  show(part: Part): string;
  /** The texts from which another session can go on. */
  state(): State;
  /** Ends the session. One that is not closed ends when it is collected. */
  close(): void;
}
