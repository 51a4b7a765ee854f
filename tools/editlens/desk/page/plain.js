// Refusals in plain words, by the kind of the place.

const RANGE = "from -9,223,372,036,854,775,808 to 9,223,372,036,854,775,807";
const WHOLE = /^[+-]?[0-9]+$/;
const SHORT = 40;

/** A text between quotes, cut where it is long. */
export const quoted = (text) => (text.length > SHORT ? `“${text.slice(0, SHORT)}…”` : `“${text}”`);

const WANTED = {
  unit: () => "Nothing can be written here.",
  bool: () => "Yes or no is wanted here.",
  int: () => "A whole number is wanted here, such as 7 or -12.",
  text: () => "A text is wanted here.",
  enum: (type) => `One of these is wanted here: ${type.members.join(", ")}.`,
};

const CAUSES = {
  overflow: () => `The sum would go past what a whole number can be here: ${RANGE}.`,
  present: (type, typed) => `There is a key ${typed === undefined ? "of this name" : quoted(typed)} here already. Choose another name.`,
  deep: () => "A tree has at most 16 levels, and this would make one more.",
  "line-too-long": () => "This is too long: an edit has at most 1,048,576 bytes.",
};

/** Why something that a person did with a control is refused, in a sentence, or null where the words of the program say it best. */
export function plainly(cause, type, typed) {
  if (!type) return null;
  const said = typed === undefined ? "" : ` ${quoted(typed)} is not one.`;
  if (type.kind === "int" && typed !== undefined) {
    return WHOLE.test(typed.trim()) ? `A whole number is wanted here, ${RANGE}.${said}` : `${WANTED.int()}${said}`;
  }
  if (cause === "kind" || cause === "value") return WANTED[type.kind]?.(type) ?? null;
  return CAUSES[cause]?.(type, typed) ?? null;
}
