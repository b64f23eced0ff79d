// Reads an answer, which is OPL: a line for each object, with the fields that its out mode keeps. Whoever calls this has
// checked the answer, so lines are canonical (docs/FORMATS.md), and anything else is skipped.

const NEWLINE = /\n/;

/** A text of OPL without its escapes. */
export function unescaped(text) {
  return text.includes("%") ? text.replace(/%([0-9a-f]+)%/gi, (_, digits) => String.fromCodePoint(parseInt(digits, 16))) : text;
}

function tagsOf(text) {
  if (text === "") return [];
  return text.split(",").map((tag) => {
    const at = tag.indexOf("=");
    return [unescaped(tag.slice(0, at)), unescaped(tag.slice(at + 1))];
  });
}

function membersOf(text) {
  if (text === "") return [];
  return text.split(",").map((member) => {
    const at = member.indexOf("@");
    return { kind: member[0], id: member.slice(1, at), role: unescaped(member.slice(at + 1)) };
  });
}

const READERS = {
  v: (object, text) => (object.version = text),
  c: (object, text) => (object.changeset = text),
  t: (object, text) => (object.timestamp = text),
  i: (object, text) => (object.uid = text),
  u: (object, text) => (object.user = unescaped(text)),
  T: (object, text) => (object.tags = tagsOf(text)),
  x: (object, text) => (object.longitude = text),
  y: (object, text) => (object.latitude = text),
  N: (object, text) => (object.nodes = text === "" ? [] : text.split(",").map((node) => node.slice(1))),
  M: (object, text) => (object.members = membersOf(text)),
};

/** An object of one line: ids and numbers stay texts, since a number of JavaScript has 53 bits. */
function objectOf(line) {
  const fields = line.split(" ");
  const object = { kind: fields[0][0], id: fields[0].slice(1), tags: [] };
  for (const field of fields.slice(1)) READERS[field[0]]?.(object, field.slice(1));
  return object;
}

/** The objects of an answer, in its order. An object that is printed twice comes twice. */
export function readOpl(text) {
  return text
    .split(NEWLINE)
    .filter((line) => /^[nwr]-?\d/.test(line))
    .map(objectOf);
}

/** The name of an object that is the same for each line of it. */
export const keyOf = (object) => object.kind + object.id;

/**
 * One object for each key, with all fields that its lines have: `out ids;out skel;` prints each object twice. The order
 * is that of the first lines.
 */
export function merged(objects) {
  const byKey = new Map();
  for (const object of objects) {
    const known = byKey.get(keyOf(object));
    if (known === undefined) byKey.set(keyOf(object), { ...object });
    else Object.assign(known, object, { tags: object.tags.length > 0 ? object.tags : known.tags });
  }
  return [...byKey.values()];
}
