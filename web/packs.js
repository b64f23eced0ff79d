// Packs on servers: the page finds the answer by itself, and asks no mirror.

import { FORMS } from "./checker.js";
import { Library, compiled } from "./library.js";

/** The address of a pack or of a head, or null where it is none: one on the web whose path ends with `.pack` or `.head`. */
export function packAddress(text) {
  try {
    const url = new URL(text.trim());
    const isWeb = url.protocol === "https:" || url.protocol === "http:";
    return isWeb && !url.hash && /\.(pack|head)$/i.test(url.pathname) ? url.href : null;
  } catch {
    return null;
  }
}

const isHead = (url) => /\.head$/i.test(new URL(url).pathname);

export class Packs {
  #library = null;
  #module;

  /** Loads the library at the first query, unless a compiled one is given. */
  constructor(module = null) {
    this.#module = module;
  }

  /**
   * Finds the answer to a query in the pack at an address, or in the files of a head there, in a form of FORMS. Gives `{status, reason, cause, place, document,
   * requests, received, size, milliseconds}`: the status is "yes", "no" or "no memory"; the document is there after a yes.
   * `guess` is how many bytes it may have. `signal` stops it; `onNews` gets `{requests, received}` as parts come.
   */
  answer(url, query, root, form, { guess = 65_536, signal = null, onNews } = {}) {
    this.#library ??= new Library(this.#module ?? compiled("osm_query"), "pack_worker.js");
    const message = { job: "answer", url, isHead: isHead(url), query, root, form: FORMS.indexOf(form), guess };
    return this.#library.ask(message, { signal, onNews });
  }
}
