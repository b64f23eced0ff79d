// A file on a server that gives ranges of it, and the parts of it that are here. Nothing that comes is trusted to be the file's.

import { Refused } from "./instance.js";
import { SAY } from "./strings.js";

const FRONT = 65_536; // bytes that are asked for first
const WHOLE = 67_108_864; // bytes that are taken of a server that gives no ranges
const GAP = 4096; // bytes between spans that are asked for together
const TOGETHER = 262_144; // bytes of spans that are asked for together
const AT_ONCE = 6; // requests

/** Spans `{start, end}` in order, where those that lie close are one, so that few requests bring them. */
export function joined(spans) {
  const made = [];
  for (const { start, end } of [...spans].sort((a, b) => a.start - b.start)) {
    const last = made.at(-1);
    const isClose = last && (start < last.end || (start <= last.end + GAP && end <= last.start + TOGETHER));
    if (isClose) last.end = Math.max(last.end, end);
    else made.push({ start, end });
  }
  return made;
}

/** Parts `{start, bytes}` in order, where those that touch or overlap are one. */
export function united(parts) {
  const groups = [];
  for (const part of [...parts].sort((a, b) => a.start - b.start)) {
    const last = groups.at(-1);
    const end = part.start + part.bytes.length;
    if (last && part.start <= last.end) {
      last.parts.push(part);
      last.end = Math.max(last.end, end);
    } else if (part.bytes.length > 0) groups.push({ end, parts: [part] });
  }
  return groups.map(({ end, parts: [first, ...others] }) => {
    if (others.length === 0) return first;
    const bytes = new Uint8Array(end - first.start);
    for (const part of [first, ...others]) bytes.set(part.bytes, part.start - first.start);
    return { start: first.start, bytes };
  });
}

/** A file on a server, with the parts of it that are here: rising, none empty, and none touching another. */
export class RemoteFile {
  url;
  size = 0;
  parts = [];
  requests = 0;
  received = 0;
  #cache;

  /** Nothing of it is here yet. `size` is how long it is, as far as that is known. */
  constructor(url, cache, size = 0) {
    this.url = url;
    this.#cache = cache;
    this.size = size;
  }

  /** Fetches the front of the file, and learns how long it is. `cache` says how the browser's cache is used, as in `fetch`. */
  static async open(url, cache, signal) {
    const file = new RemoteFile(url, cache);
    const { bytes, size } = await file.#get(0, FRONT, signal);
    file.size = size ?? sizeIn(bytes);
    file.parts = united([{ start: 0, bytes }]);
    return file;
  }

  /** Fetches the front of a file whose size is known. */
  async bringFront(signal) {
    const end = Math.min(FRONT, this.size);
    if (end > 0) await this.bring([{ start: 0, end }], signal, () => {});
  }

  /** How many bytes of the file are here. */
  get length() {
    return this.parts.reduce((sum, { bytes }) => sum + bytes.length, 0);
  }

  /** Fetches these spans. `onBytes` is called after each request. */
  async bring(spans, signal, onBytes) {
    const waiting = joined(spans);
    const came = [];
    const some = async () => {
      for (let span = waiting.shift(); span !== undefined; span = waiting.shift()) {
        const { bytes, size } = await this.#get(span.start, span.end, signal);
        if (bytes.length !== span.end - span.start) throw new Refused(SAY.otherRange(this.url));
        if (size !== null && size !== this.size) throw new Refused(SAY.packChanged(this.url));
        came.push({ start: span.start, bytes });
        onBytes(this);
      }
    };
    await Promise.all(Array.from({ length: AT_ONCE }, some));
    this.parts = united([...this.parts, ...came]);
  }

  /** The bytes from a start up to an end, or fewer at the file's end; and its size, where the server lets that be read. */
  async #get(start, end, signal) {
    this.requests += 1;
    const response = await this.#reached({ Range: `bytes=${start}-${end - 1}` }, signal);
    if (response.type === "opaqueredirect") throw new Refused(SAY.packMoved(this.url));
    if (response.status === 200 && start === 0) return this.#whole(response, signal);
    if (response.status === 416 && start === 0) {
      drop(response);
      return { bytes: new Uint8Array(0), size: 0 };
    }
    if (response.status !== 206) {
      drop(response);
      throw new Refused(response.status === 200 ? SAY.noRanges(this.url) : SAY.noPack(this.url, response.status));
    }
    const said = /^bytes (\d+)-\d+\/(\d+)$/.exec(response.headers.get("Content-Range") ?? "");
    if (said !== null && Number(said[1]) !== start) throw new Refused(SAY.otherRange(this.url));
    const bytes = await this.#body(response, end - start, signal, SAY.otherRange(this.url));
    return { bytes, size: said === null ? null : Number(said[2]) };
  }

  /** All of a short file, from a server that gives no ranges. */
  async #whole(response, signal) {
    if (Number(response.headers.get("Content-Length") ?? 0) > WHOLE) {
      drop(response);
      throw new Refused(SAY.noRanges(this.url));
    }
    const bytes = await this.#body(response, WHOLE, signal, SAY.noRanges(this.url));
    return { bytes, size: bytes.length };
  }

  async #reached(headers, signal) {
    try {
      return await fetch(this.url, { headers, signal, credentials: "omit", cache: this.#cache, redirect: "manual" });
    } catch {
      if (signal.aborted) throw new Refused(SAY.stopped);
      throw new Refused(SAY.packUnreachable(this.url));
    }
  }

  /** The bytes of a body, which has no more than this many, or it is refused. */
  async #body(response, most, signal, tooMany) {
    const pieces = [];
    let length = 0;
    try {
      for (const reader = response.body.getReader(); ; ) {
        const { done, value } = await reader.read();
        if (done) break;
        pieces.push({ start: length, bytes: value });
        length += value.length;
        this.received += value.length;
        if (length > most) {
          await reader.cancel();
          throw new Refused(tooMany);
        }
      }
    } catch (error) {
      if (error instanceof Refused) throw error;
      throw new Refused(signal.aborted ? SAY.stopped : SAY.packBrokeOff(error.message));
    }
    return united(pieces)[0]?.bytes ?? new Uint8Array(0);
  }
}

/** Lets the rest of a response go. Whether it could still come doesn't matter. */
function drop(response) {
  response.body?.cancel().catch(() => {});
}

/** The size that a pack states of itself, where its server's word can't be read; of anything else what is here of it. */
function sizeIn(bytes) {
  const isPack = bytes.length >= 48 && String.fromCharCode(...bytes.subarray(0, 4)) === "OSMK";
  if (!isPack) return bytes.length;
  const stated = new DataView(bytes.buffer, bytes.byteOffset).getBigUint64(40);
  return stated <= BigInt(Number.MAX_SAFE_INTEGER) ? Number(stated) : bytes.length;
}
