// A proved library, compiled to WebAssembly, in a worker of its own: whoever asks gets a promise.

import { SAY } from "./strings.js";

/** There is no result: the text says why. */
export class NotJudged extends Error {}

/**
 * Compiles the module of this name. The one with memory of 64 bits comes first, since it is made by fewer tools; where the
 * browser can't run that, the one that was lowered to 32 bits is taken.
 */
export async function compiled(name) {
  let fault = SAY.moduleMissing(name);
  for (const file of [`${name}.wasm`, `${name}_32.wasm`]) {
    try {
      const response = await fetch(new URL(`out/${file}`, import.meta.url));
      if (!response.ok) continue;
      return await WebAssembly.compile(await response.arrayBuffer());
    } catch (error) {
      fault = error.message;
    }
  }
  throw new NotJudged(SAY.noModule(fault));
}

export class Library {
  #module;
  #script;
  #worker = null;
  #waiting = new Map();
  #next = 0;

  /** Runs a compiled module, or the promise of one, in a worker of this script. A fault of the module is told by what is asked. */
  constructor(module, script) {
    this.#module = Promise.resolve(module);
    this.#module.catch(() => {});
    this.#script = script;
  }

  /** Ends when the module is there. */
  ready() {
    return this.#module;
  }

  /** Hands a message to the worker, and gives the result. `onNews` gets what the worker says before. `signal` gives it up. */
  async ask(message, { signal = null, onNews = () => {} } = {}) {
    const module = await this.#module;
    if (signal?.aborted) throw new NotJudged(SAY.stopped);
    const worker = this.#started(module);
    const number = this.#next++;
    return new Promise((resolve, reject) => {
      this.#waiting.set(number, { resolve, reject, onNews });
      signal?.addEventListener("abort", () => this.#giveUp(number), { once: true });
      worker.postMessage({ ...message, number });
    });
  }

  /** Gives up all that is under way. */
  stop() {
    this.#end(new NotJudged(SAY.stopped));
  }

  #giveUp(number) {
    if (!this.#waiting.has(number)) return;
    this.#worker?.postMessage({ givenUp: number });
    this.#settle({ number, fault: SAY.stopped });
  }

  #started(module) {
    if (this.#worker === null) {
      this.#worker = new Worker(new URL(this.#script, import.meta.url), { type: "module" });
      this.#worker.postMessage({ module });
      this.#worker.onmessage = ({ data }) => this.#settle(data);
      this.#worker.onerror = (event) => this.#end(new NotJudged(SAY.crashed(event.message ?? "worker")));
    }
    return this.#worker;
  }

  #settle({ number, news, result, fault, crash }) {
    const waiting = this.#waiting.get(number);
    if (news !== undefined) return waiting?.onNews(news);
    this.#waiting.delete(number);
    if (crash !== undefined) waiting?.reject(new NotJudged(SAY.crashed(crash)));
    else if (fault !== undefined) waiting?.reject(new NotJudged(fault));
    else waiting?.resolve(result);
  }

  #end(error) {
    this.#worker?.terminate();
    this.#worker = null;
    for (const { reject } of this.#waiting.values()) reject(error);
    this.#waiting.clear();
  }
}
