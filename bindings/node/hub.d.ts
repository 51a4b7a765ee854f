/** One document and its views, which lenses keep in step, over the library of editlens. */

/** What a line came to: `line` is the answer, and the numbers of a refusal are those of editlens.h. */
export interface HubStep {
  accepted: boolean;
  line: string;
  cause: number;
  at: number;
}

/** A call that did not do what it was asked. `status` is a name, and `cause`, `view` and `at` are the numbers of editlens.h. */
export class EditlensHubError extends Error {
  readonly status: string;
  readonly cause: number;
  readonly view: number;
  readonly at: number;
}

export class Hub {
  /** `programs` are those of the views, or one text with a line `+++` between them. `state` has the texts that `texts` gave of a hub before it. */
  constructor(programs: string[] | string, state?: string[]);
  /** Takes a line of a hub's journal, without its line feed. */
  step(line: string): HubStep;
  show(part: 'state' | 'document'): string;
  /** A text of the view with a number, from 0. Undefined if there is no such view. */
  show(part: 'view' | 'complement', view: number): string | undefined;
  /** The texts from which another hub can go on. */
  texts(): string[];
  /** Ends the hub. One that is not closed ends when it is collected. */
  close(): void;
}
