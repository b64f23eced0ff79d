// Asks a mirror for an answer with its proof.

import { SAY } from "./strings.js";

const MOST = 2 ** 30; // bytes of a body

/** The mirror gave no answer: the text says why. `refusal` is the line of a refused query, as "Q7 byte 5". */
export class NotAnswered extends Error {
  constructor(text, refusal = null) {
    super(text);
    this.refusal = refusal;
  }
}

/** The address of a mirror without a slash at its end, or null where it is none. */
export function mirrorAddress(text) {
  try {
    const url = new URL(text.trim());
    const isWeb = url.protocol === "https:" || url.protocol === "http:";
    return isWeb && !url.search && !url.hash ? url.href.replace(/\/+$/, "") : null;
  } catch {
    return null;
  }
}

/**
 * Asks for the answer to a query. Gives `{root, answer, proof, milliseconds}`, as bytes that stand in one body; nothing
 * of it is checked. `signal` stops it; `onBytes` is called with the number of bytes that came so far.
 */
export async function ask(mirror, query, signal, onBytes = () => {}) {
  const url = `${mirror}/api/checked`;
  refuseMixed(url);
  const begun = performance.now();
  const response = await reached(mirror, url, query, signal);
  const body = await whole(response, signal, onBytes);
  const milliseconds = performance.now() - begun;
  if (!response.ok) throw refusalOf(mirror, response.status, body);
  const parts = partsOf(body);
  if (parts === null) throw new NotAnswered(SAY.malformed);
  return { ...parts, milliseconds };
}

/** Refuses an address that the browser doesn't let a page ask that came by https. */
export function refuseMixed(url) {
  const { origin, protocol, hostname } = new URL(url);
  const isLoopback = /^(localhost|127\.\d+\.\d+\.\d+|\[::1\])$/.test(hostname);
  if (location.protocol === "https:" && protocol === "http:" && !isLoopback) throw new NotAnswered(SAY.mixed(origin));
}

async function reached(mirror, url, query, signal) {
  try {
    // A form is a simple request: no mirror is asked for its leave first.
    const body = new URLSearchParams({ data: query });
    return await fetch(url, { method: "POST", body, signal, credentials: "omit", cache: "no-store" });
  } catch (error) {
    if (signal.aborted) throw new NotAnswered(SAY.stopped);
    throw new NotAnswered((await isThere(mirror)) ? SAY.cors(mirror) : SAY.unreachable(mirror));
  }
}

/** Whether a server answers at all, though its answer may not be read. */
async function isThere(mirror) {
  try {
    await fetch(`${mirror}/api/root`, { mode: "no-cors", credentials: "omit", cache: "no-store" });
    return true;
  } catch {
    return false;
  }
}

/** All bytes of a body. The mirror isn't trusted, so there is a limit. */
async function whole(response, signal, onBytes) {
  const pieces = [];
  let length = 0;
  try {
    for (const reader = response.body.getReader(); ; ) {
      const { done, value } = await reader.read();
      if (done) return joined(pieces, length);
      pieces.push(value);
      length += value.length;
      if (length > MOST) {
        await reader.cancel();
        break;
      }
      onBytes(length);
    }
  } catch (error) {
    throw new NotAnswered(signal.aborted ? SAY.stopped : SAY.brokeOff(error.message));
  }
  throw new NotAnswered(SAY.tooMuch(MOST));
}

function joined(pieces, length) {
  if (pieces.length === 1) return pieces[0];
  const all = new Uint8Array(length);
  let at = 0;
  for (const piece of pieces) {
    all.set(piece, at);
    at += piece.length;
  }
  return all;
}

function refusalOf(mirror, status, body) {
  const line = new TextDecoder().decode(body.subarray(0, 200)).split("\n")[0].replace(/[^ -~]/g, " ").trim();
  if (status === 400 && /^Q\d+ byte \d+$/.test(line)) return new NotAnswered(SAY.refused, line);
  if (status === 404) return new NotAnswered(SAY.notAMirror(mirror));
  if (status === 413) return new NotAnswered(SAY.tooLarge);
  if (status === 429) return new NotAnswered(SAY.tooMany);
  if (status === 503 && line === "no memory") return new NotAnswered(SAY.mirrorMemory);
  if (status === 503 && line === "too much work") return new NotAnswered(SAY.tooMuchWork);
  if (status >= 502 && status <= 504) return new NotAnswered(SAY.mirrorDown(status));
  return new NotAnswered(SAY.status(status, line.startsWith("<") ? "" : line));
}

/** The parts of a body of /api/checked: root, length of the answer, answer, proof. Null where it is something else. */
export function partsOf(body) {
  if (body.length < 40) return null;
  const length = new DataView(body.buffer, body.byteOffset).getBigUint64(32);
  if (length > BigInt(body.length - 40)) return null;
  const end = 40 + Number(length);
  return { root: body.subarray(0, 32), answer: body.subarray(40, end), proof: body.subarray(end) };
}
