// Runs the checker. Each call has an instance of its own: its memory goes with it, and so does what a trap left half done.

import { Instance, work } from "./instance.js";

const STATUSES = ["yes", "no", "no memory", "bad root", "bad form", "too short"];

// The fields of `Told` (crates/osm_check_web/src/told.rt), in a struct of C.
const TOLD_BYTES = 32;

function toldOf(instance, status, at) {
  const numbers = instance.numbers(at, TOLD_BYTES);
  return {
    status: STATUSES[status],
    reason: numbers.getUint32(0, true),
    cause: numbers.getUint32(4, true),
    place: Number(numbers.getBigUint64(8, true)),
    ranges: Number(numbers.getBigUint64(16, true)),
    fetched: Number(numbers.getBigUint64(24, true)),
    memory: instance.wasm.memory.buffer.byteLength,
  };
}

function check(module, { query, root, answer, proof }) {
  const instance = new Instance(module);
  const given = [query, root, answer, proof].flatMap((bytes) => instance.given(bytes));
  const told = instance.room(TOLD_BYTES);
  const begun = performance.now();
  const status = instance.wasm.osm_check_verdict(...given, told);
  const milliseconds = performance.now() - begun;
  return { ...toldOf(instance, status, told), milliseconds };
}

/** Has the document of an answer told. `guess` is how long it may be; where it is longer, it is told once more. */
function tell(module, { form, query, root, proof, guess }) {
  const instance = new Instance(module);
  const given = [query, root, proof].flatMap((bytes) => instance.given(bytes));
  const told = instance.room(TOLD_BYTES);
  const { status, bytes } = instance.handedOver(guess, STATUSES.indexOf("too short"), (room, length, size) =>
    instance.wasm.osm_check_tell(form, ...given, room, length, told, size),
  );
  const found = toldOf(instance, status, told);
  return { ...found, document: found.status === "yes" ? bytes : null };
}

work({ check, tell }, { status: "no memory", milliseconds: 0, fetched: 0 });
