// The proved checker: whether an answer is right, and the documents of right answers.

import { Library, compiled } from "./library.js";

export { NotJudged } from "./library.js";

/** The forms in which an answer is told, in the order of their numbers (crates/osm_check_web/src/documents.rt). */
export const FORMS = ["opl", "json", "xml"];

export class Checker {
  #library;

  /** Begins to load the checker, unless a compiled one is given; a fault is told by the first check. */
  constructor(module = compiled("osm_check")) {
    this.#library = new Library(module, "check_worker.js");
  }

  /** Ends when the checker is there. */
  ready() {
    return this.#library.ready();
  }

  /**
   * Judges an answer: `root` has 32 bytes, the others are any bytes. Gives `{status, reason, cause, place, fetched,
   * milliseconds}`: status is "yes", "no", "no memory" or "bad root". The bytes are copied, so they stay the caller's.
   */
  check(query, root, answer, proof) {
    return this.#library.ask({ job: "check", query, root, answer, proof });
  }

  /**
   * Makes the document of an answer in a form of FORMS, from the query, the root and the proof alone. Gives what `check`
   * gives, but for the milliseconds, and `document`: its bytes where the status is "yes", else null. `guess` is how many
   * bytes it may have; where it has more, it is made twice.
   */
  tell(form, query, root, proof, guess) {
    return this.#library.ask({ job: "tell", form: FORMS.indexOf(form), query, root, proof, guess });
  }

  /** The fault of a query as `{cause, place}`, or null where it reads. The checker looks at the query before anything else. */
  async fault(query) {
    const none = new Uint8Array(0);
    const verdict = await this.check(query, new Uint8Array(32), none, none);
    return verdict.status === "no" && verdict.reason === 1 ? { cause: verdict.cause, place: verdict.place } : null;
  }

  /** Gives up all checks that are under way. */
  stop() {
    this.#library.stop();
  }
}
