// A client that shows a person's edits at once, while they are on their way, and carries them over the changes of others.
//
// It holds the last document that the session has answered, and the edits since then: the first is on its way, and the others wait behind
// it. When a change of another comes, they are carried over it. An edit that has no place there any more is dropped, and those that rest on
// it too; each is told with its cause. This is tested and not proved, and answers as editlens.pending for Python does.
//
//     import { PendingEdits } from "./editlens_pending.js";
//     const edits = new PendingEdits(type, number, document, { offer: (offer) => send(offer) });
//     edits.edit([{ at: ["hours", [{ add: 1 }]] }]);        // edits.shown has it
//     for (const { sentence } of edits.took(number, word, ticket)) tell(sentence);

import { Overflow, act } from "./editlens_act.js";
import { NotCarried, SENTENCES, bridgeOf, carry, flipped } from "./editlens_rebase.js";
import { writeJson } from "./editlens_json.js";

/** The cause of a refusal because changes came before: the edit is offered again when they are here. */
export const STALE = "stale";

/** A change came whose number is not the next one. Ask for those behind `number`, or begin again. */
export class MissedChange extends Error {}

function freshTicket() {
  const bytes = new Uint8Array(16);
  if (globalThis.crypto) globalThis.crypto.getRandomValues(bytes);
  else bytes.forEach((_, at) => { bytes[at] = Math.floor(256 * Math.random()); });
  return Array.from(bytes, (byte) => byte.toString(16).padStart(2, "0")).join("");
}

function lostEdit(edit, cause, restsOn = null) {
  const said = SENTENCES[cause] ?? `the session answered ${cause}`;
  const sentence = restsOn === null ? `edit ${edit} was dropped: ${said}` : `edit ${edit} rests on edit ${restsOn}, which was dropped`;
  return { edit, cause, restsOn, sentence };
}

/**
 * The document as a person sees it: `document` is that of the state `number` of the session, and `shown` has the edits in `waiting` too.
 *
 * `connection.offer` sends an offer: `ticket`, `number` and `word`. One that is sent again is the same, and must not be made a second time:
 * the ticket is its Idempotency-Key. Answers come later, by `took` and `refused`. Both return the edits that are dropped, each with `edit`,
 * its number, `cause`, `restsOn`, the number of the dropped edit without which it has no place or null, and `sentence`, for a person.
 */
export class PendingEdits {
  constructor(type, number, document, connection) {
    Object.assign(this, { type, number, document, shown: document, connection, waiting: [], offered: null });
    Object.assign(this, { offeredEdit: 0, lastEdit: 0, staleAt: -1 });
  }

  /** Makes an edit of what is shown, and returns its number. It must act there: only sums are looked at. */
  edit(word) {
    this.shown = act(this.type, this.shown, word);
    this.lastEdit += 1;
    this.waiting.push({ edit: this.lastEdit, word });
    const edit = this.lastEdit;
    this.offerNext();
    return edit;
  }

  /** A change of the session: its number, this side's word, and the ticket if an offer became this change. */
  took(number, word, ticket = null) {
    if (number <= this.number) return [];
    if (number > this.number + 1) throw new MissedChange(`change ${number} came behind change ${this.number}`);
    const before = this.document;
    const isOwn = this.offered !== null && ticket === this.offered.ticket;
    this.document = act(this.type, before, word);
    this.number = number;
    const first = isOwn && this.answered() ? this.waiting.shift() : null;
    const isSame = first && writeJson(first.word) === writeJson(word);
    const lost = isSame ? [] : this.carryOver(...this.partsOf(before, word, first));
    this.offerNext();
    return lost;
  }

  /** The session has refused an offer. Where the cause is `stale`, nothing is dropped. */
  refused(ticket, cause) {
    if (this.offered === null || ticket !== this.offered.ticket) return [];
    const { number } = this.offered;
    const isFirst = this.answered();
    let lost = [];
    if (cause === STALE) {
      this.staleAt = number;
    } else if (isFirst) {
      const first = this.waiting.shift();
      const part = { bridge: flipped(bridgeOf(this.type, first.word, this.document)), restsOn: first.edit };
      lost = [lostEdit(first.edit, cause), ...this.carryOver([part], act(this.type, this.document, first.word))];
    }
    this.offerNext();
    return lost;
  }

  /** There is a connection again: what was on its way is sent once more. The changes behind `number` must come, too. */
  again() {
    if (this.offered !== null) this.connection.offer(this.offered);
  }

  /** The session is in a state to which no changes lead. All edits are dropped, and returned. */
  beginAgain(type, number, document) {
    const lost = this.waiting.map((it) => lostEdit(it.edit, "reset"));
    Object.assign(this, { type, number, document, shown: document, waiting: [], offered: null, staleAt: -1 });
    return lost;
  }

  /** Forgets the offer. Returns whether its edit still waits: it may have been dropped meanwhile. */
  answered() {
    this.offered = null;
    return this.waiting.length > 0 && this.waiting[0].edit === this.offeredEdit;
  }

  /** Offers the first edit, unless one is on its way or the changes that made it stale have not come. Empty ones have nothing to do. */
  offerNext() {
    if (this.offered !== null || this.number <= this.staleAt) return;
    while (this.waiting.length > 0 && this.waiting[0].word.length === 0) this.waiting.shift();
    if (this.waiting.length === 0) return;
    this.offeredEdit = this.waiting[0].edit;
    this.offered = { ticket: freshTicket(), number: this.number, word: this.waiting[0].word };
    this.connection.offer(this.offered);
  }

  /** The bridges over a change, and the document from which they lead. They take the edit back of which the session made this change. */
  partsOf(before, word, first) {
    const parts = this.waiting.length > 0 ? [{ bridge: bridgeOf(this.type, word, before), restsOn: null }] : [];
    if (!first) return [parts, before];
    return [[{ bridge: flipped(bridgeOf(this.type, first.word, before)), restsOn: null }, ...parts], act(this.type, before, first.word)];
  }

  /** Carries the edits, made for the document `near`, over bridges that lead from there to the document of the session. */
  carryOver(bridges, near) {
    const { waiting } = this;
    const lost = [];
    let [parts, before] = [bridges, near];
    this.waiting = [];
    this.shown = this.document;
    for (const it of waiting) {
      const after = act(this.type, before, it.word);
      const { behind, dropped } = this.carried(parts, it);
      if (dropped) {
        lost.push(dropped);
        parts = [{ bridge: flipped(bridgeOf(this.type, it.word, before)), restsOn: it.edit }, ...parts];
      } else {
        parts = behind;
      }
      before = after;
    }
    return lost;
  }

  /** Carries one edit and shows it. Returns the bridges behind it, or why it is dropped. */
  carried(parts, { edit, word }) {
    const behind = [];
    let [now, blamed] = [word, null];
    try {
      for (const { bridge, restsOn } of parts) {
        blamed = restsOn;
        const carried = carry(bridge, now);
        now = carried.word;
        behind.push({ bridge: carried.bridge, restsOn });
      }
      this.shown = act(this.type, this.shown, now);
    } catch (why) {
      if (why instanceof NotCarried) return { dropped: lostEdit(edit, why.cause, blamed) };
      if (why instanceof Overflow) return { dropped: lostEdit(edit, "overflow") };
      throw why;
    }
    this.waiting.push({ edit, word: now });
    return { behind };
  }
}
