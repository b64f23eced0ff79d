// Packs and heads on servers, as the library reads them: the files of a head are one, in which each begins at the offset of its
// number times 2^48. Nothing that a head says is trusted: the library compares its root with the one that is asked for, and digests
// each node that it takes from the files.

import { Refused } from "./instance.js";
import { rootBytes } from "./kept.js";
import { RemoteFile } from "./ranges.js";
import { SAY } from "./strings.js";

const FILE_BITS = 48n;
const FILES = 65_535; // in a head
const TEXT_LIMIT = 18_153_500; // bytes of a head
const NUMBER = "0|[1-9][0-9]{0,19}";
const NAME = /^[A-Za-z0-9_-][A-Za-z0-9._-]{0,254}$/;

/** A pack on a server. */
export class RemotePack {
  #file;

  constructor(file) {
    this.#file = file;
  }

  static async open(url, cache, signal) {
    return new RemotePack(await RemoteFile.open(url, cache, signal));
  }

  /** How many bytes it has, as the library is told. */
  get size() {
    return BigInt(this.#file.size);
  }

  /** How many bytes of it are here, were received, and are there; and how many requests were made. */
  get counts() {
    const { length, received, requests, size } = this.#file;
    return { length, received, requests, total: size };
  }

  /** Its parts that are here: `{start, bytes}`, rising. */
  get pieces() {
    return this.#file.parts.map(({ start, bytes }) => ({ start: BigInt(start), bytes }));
  }

  /** Fetches these spans `{start, end}`. `onBytes` is called after each request. */
  bring(spans, signal, onBytes) {
    const wanted = spans.map(({ start, end }) => ({ start: Number(start), end: Number(end) }));
    return this.#file.bring(wanted, signal, onBytes);
  }

  /** Asks the library. */
  ask(instance, [form, query, root, most], pieces, handedOver) {
    return instance.wasm.osm_query_answer(form, ...query, ...root, most, this.size, ...pieces, ...handedOver);
  }
}

/** The files that a head on a server names. */
export class RemoteFiles {
  /** What the head states: `{root, manifestAt, manifestLength}`. */
  #stated;
  #files;
  #head;

  constructor(head, stated, files) {
    this.#head = head;
    this.#stated = stated;
    this.#files = files;
  }

  /** Fetches the head, which may have changed since a cache took it, and the fronts of the first file and of the last one. */
  static async open(url, cache, signal) {
    const head = await RemoteFile.open(url, "no-cache", signal);
    if (head.size > TEXT_LIMIT) throw new Refused(SAY.noHead(url, 1));
    await head.bring(missingOf(head), signal, () => {});
    const { files: named, ...stated } = readHead(url, head.parts[0]?.bytes ?? new Uint8Array(0));
    const files = named.map(({ name, length }) => new RemoteFile(new URL(name, url).href, cache, length));
    await Promise.all([...new Set([files[0], files.at(-1)])].map((file) => file.bringFront(signal)));
    return new RemoteFiles(head, stated, files);
  }

  get size() {
    return BigInt(this.#files.length) << FILE_BITS;
  }

  get counts() {
    const sum = (of) => [this.#head, ...this.#files].reduce((all, file) => all + of(file), 0);
    return { length: sum((it) => it.length), received: sum((it) => it.received), requests: sum((it) => it.requests), total: sum((it) => it.size) };
  }

  get pieces() {
    return this.#files.flatMap(({ parts }, number) =>
      parts.map(({ start, bytes }) => ({ start: (BigInt(number) << FILE_BITS) + BigInt(start), bytes })),
    );
  }

  async bring(spans, signal, onBytes) {
    const byFile = new Map();
    for (const { start, end } of spans) {
      const number = Number(start >> FILE_BITS);
      const from = BigInt(number) << FILE_BITS;
      const file = this.#files[number];
      if (end - from > file.size) throw new Refused(SAY.endsBefore(file.url));
      byFile.set(file, [...(byFile.get(file) ?? []), { start: Number(start - from), end: Number(end - from) }]);
    }
    await Promise.all(Array.from(byFile, ([file, own]) => file.bring(own, signal, () => onBytes(this.counts))));
  }

  ask(instance, [form, query, root, most], pieces, handedOver) {
    const { root: stated, manifestAt, manifestLength } = this.#stated;
    const said = [...instance.given(stated), manifestAt, manifestLength];
    return instance.wasm.osm_query_answer_in_files(form, ...query, ...root, most, ...said, this.size, ...pieces, ...handedOver);
  }
}

/** What of a file isn't here, where its front is. */
function missingOf(file) {
  return file.length < file.size ? [{ start: file.length, end: file.size }] : [];
}

/**
 * What the text of a head says (docs/FORMATS.md, "Heads"): `{root, manifestAt, manifestLength, files}`, of each file its name and
 * length. Any other text is refused with the number of its first wrong line.
 */
function readHead(url, bytes) {
  const lines = new TextDecoder("latin1").decode(bytes).split("\n");
  let at = 0;
  const next = (form) => {
    const found = new RegExp(`^${form}$`).exec(lines[at]);
    at += 1;
    if (found === null) throw new Refused(SAY.noHead(url, at));
    return found.slice(1);
  };
  const within = (number, most) => {
    if (BigInt(number) > most) throw new Refused(SAY.noHead(url, at));
    return BigInt(number);
  };
  next("osm_mirror head 1");
  const root = rootBytes(next("root ([0-9a-f]{64})")[0]);
  within(next(`sequence (${NUMBER})`)[0], 2n ** 64n - 1n);
  const [place, length] = next(`manifest (${NUMBER}) (${NUMBER})`);
  const stated = { root, manifestAt: within(place, 2n ** 64n - 1n), manifestLength: Number(within(length, 2n ** 32n - 1n)) };
  const files = [];
  do {
    const [long, name] = next(`file (${NUMBER}) (.*)`);
    if (!NAME.test(name) || files.length === FILES) throw new Refused(SAY.noHead(url, at));
    files.push({ length: Number(within(long, 2n ** FILE_BITS)), name });
  } while (at < lines.length && (at < lines.length - 1 || lines[at] !== ""));
  next("");
  return { ...stated, files };
}
