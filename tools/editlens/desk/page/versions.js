// What changed from one version to the next, and whether an edit that was begun before still means the same place.

const parent = (place) => place.slice(0, place.lastIndexOf("/"));
const isInside = (place, outer) => place === outer || place.startsWith(`${outer}/`);

/** Whether a change moves, replaces or empties a place. An edit is `free` where it holds for whatever the place has inside. */
function touches([changed, sort], place, isFree) {
  const around = sort === "set" ? changed : parent(changed);
  if (isFree && isInside(around, place)) return false;
  return isInside(place, around) || isInside(around, place);
}

/** The changes that this window has drawn, version by version. */
export class Versions {
  constructor() {
    this.changes = new Map();
  }

  /** Remembers what a state changed. Where a version was not drawn, nothing is known of what changed before. */
  drawn(before, state) {
    if (!before || before.session !== state.session || before.version + 1 !== state.version) this.changes.clear();
    else this.changes.set(state.version, state.sides);
  }

  /** The newest version for which an edit of a place, begun at a base, means the same place; the base itself where that is not certain. */
  rebased(base, now, side, place, isFree) {
    for (let version = base + 1; version <= now; version += 1) {
      const sides = this.changes.get(version);
      if (!sides || sides[side].changes.some((it) => touches(it, place, isFree))) return base;
    }
    return Math.max(base, now);
  }
}
