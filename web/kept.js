// What the page keeps in this browser: roots with names, mirrors, what was asked, the colours. Without a store, as where
// the browser forbids it, all of it lasts as long as the page.

const FRONT = "osm_mirror.";
const HISTORY = 50;
const MIRRORS = 12;

const held = new Map();

function read(name, otherwise) {
  try {
    return JSON.parse(localStorage.getItem(FRONT + name)) ?? held.get(name) ?? otherwise;
  } catch {
    return held.get(name) ?? otherwise;
  }
}

function write(name, value) {
  held.set(name, value);
  try {
    localStorage.setItem(FRONT + name, JSON.stringify(value));
  } catch {
    // It is held in memory.
  }
}

/** The bytes of a root of 64 hexadecimal digits, or null where it is none. */
export function rootBytes(digits) {
  if (!/^[0-9a-f]{64}$/i.test(digits)) return null;
  return Uint8Array.from(digits.match(/../g), (pair) => parseInt(pair, 16));
}

export const hexOf = (bytes) => Array.from(bytes, (byte) => byte.toString(16).padStart(2, "0")).join("");

/** The saved roots, `{name, digits}` each, in the order in which they were saved. */
export const roots = () => read("roots", []);

/** Saves a root; one with the same digits gets the new name. */
export function saveRoot(name, digits) {
  const others = roots().filter((root) => root.digits !== digits);
  write("roots", [...others, { name, digits }]);
}

export function removeRoot(digits) {
  write("roots", roots().filter((root) => root.digits !== digits));
}

/** The digits of the root that was chosen last. */
export const chosenRoot = () => read("root", "");
export const chooseRoot = (digits) => write("root", digits);

/** The mirrors that were asked, the last one first. */
export const mirrors = () => read("mirrors", []);

/** What was asked, `{query, mirror, when, verdict}` each, the last one first. */
export const asked = () => read("asked", []);

export function keepAsked(query, mirror, verdict) {
  const others = asked().filter((it) => it.query !== query || it.mirror !== mirror);
  write("asked", [{ query, mirror, when: Date.now(), verdict }, ...others].slice(0, HISTORY));
  if (mirror !== "") write("mirrors", [mirror, ...mirrors().filter((it) => it !== mirror)].slice(0, MIRRORS));
}

export const clearAsked = () => write("asked", []);

/** "auto", "light" or "dark". */
export const theme = () => read("theme", "auto");
export const keepTheme = (name) => write("theme", name);
