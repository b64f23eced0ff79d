// Answers queries from packs on servers, and from the files of heads there. The proved library says which parts of them it needs and
// hasn't; they are fetched here, and it is asked again, until it has found the answer. What was fetched is kept for later queries.

import { RemoteFiles, RemotePack } from "./heads.js";
import { Instance, Refused, work } from "./instance.js";

const STATUSES = ["yes", "no", "no memory", "bad root", "bad form", "too short", "more", "bad pieces"];

// The fields of `Told` (crates/osm_query_web/src/told.rt), in a struct of C.
const TOLD_BYTES = 16;
const SPAN_BYTES = 16; // a start and a length
const MOST = 2n ** 30n; // bytes of nodes for a query
const KEPT = 67_108_864; // bytes of a pack between queries
const UNREADABLE = 1; // the reason of a query that doesn't read

/** What is kept: `{url, pack}`. */
let kept = null;

/**
 * Finds the answer to a query in the pack at an address, or in the files of a head there: `root` has 32 bytes, `form` is a number of
 * FORMS, `guess` is how many bytes the document may have. Gives `{status, reason, cause, place, document}` as the library tells it,
 * and what it took. Where parts from earlier queries don't fit any more, as after the pack was replaced, all is fetched anew.
 */
async function answer(module, asked, signal, say) {
  const begun = performance.now();
  const isKept = kept?.url === asked.url;
  const open = (cache) => (asked.isHead ? RemoteFiles : RemotePack).open(asked.url, cache, signal);
  let pack = isKept ? kept.pack : await open("default");
  let before = isKept ? pack.counts : { requests: 0, received: 0 };
  let found = await answered(module, asked, pack, signal, say).catch((error) => {
    if (!isKept || signal.aborted || !(error instanceof Refused)) throw error;
    return null;
  });
  if (found === null || (isKept && found.status === "no" && found.reason !== UNREADABLE)) {
    pack = await open("reload");
    before = { requests: 0, received: 0 };
    found = await answered(module, asked, pack, signal, say);
  }
  const { length, requests, received, total } = pack.counts;
  kept = length <= KEPT ? { url: asked.url, pack } : null;
  const took = { requests: requests - before.requests, received: received - before.received };
  return { ...found, ...took, size: total, milliseconds: performance.now() - begun };
}

/** Asks the library, fetches what it misses, and asks it again, until it misses nothing. */
async function answered(module, asked, pack, signal, say) {
  for (;;) {
    const found = judged(module, asked, pack);
    if (found.status !== "more") return found;
    await pack.bring(spansIn(found.document), signal, ({ requests, received }) => say({ requests, received }));
  }
}

/** What the library says of the parts that are here. */
function judged(module, { query, root, form, guess }, pack) {
  const instance = new Instance(module);
  const question = [form, instance.given(query), instance.given(root), MOST];
  const parts = pack.pieces;
  const pieces = [instance.given(tableOf(parts)), instance.givenAll(parts.map(({ bytes }) => bytes))].flat();
  const told = instance.room(TOLD_BYTES);
  const { status, bytes } = instance.handedOver(guess, STATUSES.indexOf("too short"), (room, length, len) =>
    pack.ask(instance, question, pieces, [room, length, told, len]),
  );
  const numbers = instance.numbers(told, TOLD_BYTES);
  return {
    status: STATUSES[status],
    reason: numbers.getUint32(0, true),
    cause: numbers.getUint32(4, true),
    place: Number(numbers.getBigUint64(8, true)),
    document: bytes,
  };
}

/** Where the parts stand, as the library reads it. */
function tableOf(parts) {
  const table = new Uint8Array(parts.length * SPAN_BYTES);
  const numbers = new DataView(table.buffer);
  parts.forEach(({ start, bytes }, at) => {
    numbers.setBigUint64(at * SPAN_BYTES, start, true);
    numbers.setBigUint64(at * SPAN_BYTES + 8, BigInt(bytes.length), true);
  });
  return table;
}

/** The spans that the library misses. */
function spansIn(bytes) {
  const numbers = new DataView(bytes.buffer, bytes.byteOffset, bytes.length);
  return Array.from({ length: bytes.length / SPAN_BYTES }, (_, at) => {
    const start = numbers.getBigUint64(at * SPAN_BYTES, true);
    return { start, end: start + numbers.getBigUint64(at * SPAN_BYTES + 8, true) };
  });
}

work({ answer }, { status: "no memory", milliseconds: 0 });
