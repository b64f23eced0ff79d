// The query, with its fault marked at its place.

import { QUERY_CODES, SAY } from "./strings.js";

const encoder = new TextEncoder();

/** The place in a text, in units of JavaScript, of a byte of its UTF-8. */
export function placeOfByte(text, byte) {
  let bytes = 0;
  let place = 0;
  for (const character of text) {
    if (bytes >= byte) break;
    bytes += encoder.encode(character).length;
    place += character.length;
  }
  return place;
}

export class Editor {
  #area;
  #marks;
  #fault;
  #marked = null;

  constructor(area, marks, fault) {
    this.#area = area;
    this.#marks = marks;
    this.#fault = fault;
    area.addEventListener("input", () => this.clear());
    area.addEventListener("scroll", () => this.#follow());
    new ResizeObserver(() => this.#follow()).observe(area);
  }

  get query() {
    return this.#area.value;
  }

  set query(text) {
    this.#area.value = text;
    this.clear();
    this.#area.dispatchEvent(new Event("input", { bubbles: true }));
  }

  /** The bytes of the query, which are what a mirror gets and the checker reads. */
  get bytes() {
    return encoder.encode(this.query);
  }

  focus() {
    this.#area.focus();
  }

  /** Marks a fault at a byte, with its meaning below the query. */
  showFault(code, byte) {
    const text = this.query;
    const place = placeOfByte(text, byte);
    this.#marked = place;
    const [meaning, advice] = QUERY_CODES[code] ?? [SAY.unknownFault(code), ""];
    const lines = text.slice(0, place).split("\n");
    this.#fault.textContent =
      place >= text.length
        ? SAY.faultAtEnd(code, meaning, advice)
        : SAY.fault(code, lines.length, Array.from(lines.at(-1)).length + 1, meaning, advice);
    this.#area.setAttribute("aria-invalid", "true");
    this.#draw(text, place);
  }

  /** Puts the cursor at the fault that is shown. */
  goToFault() {
    if (this.#marked === null) return;
    this.#area.focus();
    this.#area.setSelectionRange(this.#marked, this.#marked);
  }

  clear() {
    this.#marked = null;
    this.#fault.textContent = "";
    this.#marks.textContent = "";
    this.#area.removeAttribute("aria-invalid");
  }

  #draw(text, place) {
    const rest = Array.from(text.slice(place, place + 2));
    const character = rest[0] === undefined || rest[0] === "\n" ? " " : rest[0];
    const mark = document.createElement("mark");
    mark.textContent = character;
    const after = rest[0] === "\n" ? text.slice(place) : text.slice(place + (rest[0]?.length ?? 0));
    this.#marks.replaceChildren(text.slice(0, place), mark, after);
    this.#follow();
  }

  /** The marks lie below the text, however it is scrolled. */
  #follow() {
    this.#marks.style.width = `${this.#area.clientWidth + 2}px`;
    this.#marks.scrollTop = this.#area.scrollTop;
  }
}

/**
 * The query with `(._;>;);`, or the same of the set that is printed, before its last out statement; null where there is
 * none, or where that stands there already. Texts between quotes and comments are passed over.
 */
export function withNodes(query) {
  const tokens = /"(?:\\[^]|[^"\\])*"|'(?:\\[^]|[^'\\])*'|\/\/[^\n]*|\/\*[^]*?\*\/|(?:\.([A-Za-z_]\w*)\s*)?\bout\b(?!\s*[:\]=!])/g;
  let last = null;
  for (const found of query.matchAll(tokens)) if (/out$/.test(found[0])) last = found;
  if (last === null) return null;
  const set = last[1];
  const added = set === undefined || set === "_" ? "(._;>;);" : `(.${set};.${set} >;)->.${set};`;
  const before = query.slice(0, last.index);
  return before.trimEnd().endsWith(added) ? null : before + added + query.slice(last.index);
}
