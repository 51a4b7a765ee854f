// The state of the server, where it says only what is new.

import { typeAt } from "./places.js";

/** A state with all that it leaves out, as the state before has it. */
export function completed(before, said) {
  if (said.sides && !Object.values(said.sides).some((it) => it.replaced)) return { complement: before?.complement, ...said };
  const sides = { ...before.sides };
  for (const [name, { replaced, changes }] of Object.entries(said.sides ?? {})) {
    const { type, document } = sides[name];
    sides[name] = { type, changes, document: replaced.reduce((all, [path, fresh]) => withValue(type, all, path, fresh), document) };
  }
  return { ...before, ...said, sides };
}

const at = (list, number, value) => [...list.slice(0, number), value, ...list.slice(number + 1)];

/** A drawn value with another value at a path. The path has fields, tags, keys and the numbers of items. */
function withValue(type, value, [step, ...rest], fresh) {
  if (step === undefined) return fresh;
  const into = (it) => withValue(typeAt(type, [step]), it, rest, fresh);
  if (type.kind === "alternatives") return [value[0], into(value[1])];
  if (type.kind === "list") return at(value, step, into(value[step]));
  const number = type.kind === "record" ? type.fields.findIndex(([name]) => name === step) : value.findIndex(([key]) => key === step);
  return at(value, number, type.kind === "record" ? into(value[number]) : [step, into(value[number][1])]);
}
