// An instance of a proved library in a worker, and how a worker takes what it is asked.

/** The module's memory is used up. */
export class NoMemory extends Error {}

/** What was asked can't be done: the text says why, for the user. */
export class Refused extends Error {}

const SIZE_BYTES = 8;

/** An instance of a module: what it is given, it keeps until it is let go. */
export class Instance {
  constructor(module) {
    this.wasm = new WebAssembly.Instance(module, {}).exports;
  }

  /** A view of the memory. It may have grown, so each view is made anew. */
  view(at, length) {
    return new Uint8Array(this.wasm.memory.buffer, Number(at), length);
  }

  /** The same, for numbers. */
  numbers(at, length) {
    return new DataView(this.wasm.memory.buffer, Number(at), length);
  }

  room(size) {
    const at = this.wasm.page_room(BigInt(Math.max(size, 1)));
    if (at === 0n) throw new NoMemory();
    return at;
  }

  /** Place and length of these bytes, as a slice is handed over. */
  given(bytes) {
    return this.givenAll([bytes]);
  }

  /** Place and length of these parts, one after the other in one slice. */
  givenAll(parts) {
    const length = parts.reduce((sum, part) => sum + part.length, 0);
    const at = this.room(length);
    let from = Number(at);
    for (const part of parts) {
      this.view(from, part.length).set(part);
      from += part.length;
    }
    return [at, BigInt(length)];
  }

  /**
   * What a call hands over: `call` gets a room, its length and the place for the size of what is there, and gives a status.
   * Where the status is `tooShort`, it is called once more with as much room as it says. Gives the status and the bytes.
   */
  handedOver(guess, tooShort, call) {
    const size = this.room(SIZE_BYTES);
    for (let length = guess; ; ) {
      const room = this.room(length);
      const status = call(room, BigInt(length), size);
      const needed = Number(this.numbers(size, SIZE_BYTES).getBigUint64(0, true));
      if (status === tooShort && needed > length) length = needed;
      else return { status, bytes: this.view(room, Math.min(needed, length)).slice() };
    }
  }
}

/**
 * Does what the page asks of this worker. The first message has the module, and each later one the name of a job and a number;
 * a job gets the module, the message, a signal that tells when it is given up, and `say`, which tells the page news. A job
 * without memory gives `withoutMemory`.
 */
export function work(jobs, withoutMemory) {
  const underWay = new Map();
  let module = null;
  const done = async (message, signal) => {
    const { number } = message;
    try {
      const say = (news) => signal.aborted || postMessage({ number, news });
      return { number, result: await jobs[message.job](module, message, signal, say) };
    } catch (error) {
      if (error instanceof NoMemory || error instanceof RangeError) return { number, result: withoutMemory };
      return error instanceof Refused ? { number, fault: error.message } : { number, crash: error.message };
    }
  };
  onmessage = async ({ data }) => {
    if (data.module) return void (module = data.module);
    if (data.givenUp !== undefined) return underWay.get(data.givenUp)?.abort();
    const stopping = new AbortController();
    underWay.set(data.number, stopping);
    const message = await done(data, stopping.signal);
    underWay.delete(data.number);
    if (!stopping.signal.aborted) postMessage(message);
  };
}
