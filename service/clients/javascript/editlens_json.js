// JSON with whole numbers of 64 bits: those that JavaScript cannot hold are BigInt.

const PARTS = /"(?:[^"\\]|\\.)*"|(?<![\d.eE+-])-?\d{16,}(?![\d.eE])/g;
const MARK = "\u0000int:";

/** The tree of a text. */
export function readJson(text) {
  if (!/\d{16}/.test(text)) return JSON.parse(text);
  const marked = text.replace(PARTS, (part) => (part[0] === '"' ? part : JSON.stringify(MARK + part)));
  return JSON.parse(marked, (_, value) => (typeof value === "string" && value.startsWith(MARK) ? whole(BigInt(value.slice(MARK.length))) : value));
}

/** A whole number as JavaScript has it: a number where that is exact, or else a BigInt. */
export function whole(value) {
  return BigInt.asIntN(54, value) === value ? Number(value) : value;
}

/** The text of a tree. */
export function writeJson(tree) {
  if (typeof tree === "bigint") return tree.toString();
  if (Array.isArray(tree)) return `[${tree.map(writeJson).join(",")}]`;
  if (tree !== null && typeof tree === "object") {
    return `{${Object.entries(tree).map(([name, inner]) => `${JSON.stringify(name)}:${writeJson(inner)}`).join(",")}}`;
  }
  return JSON.stringify(tree);
}
