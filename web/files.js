// The three files of `prove`: which of them is the query, which the answer and which the proof.

import { SAY } from "./strings.js";

/** The files can't be used: the text says why. */
export class NotUsable extends Error {}

const isProof = (bytes) => bytes.length >= 5 && String.fromCharCode(...bytes.subarray(0, 4)) === "OSMP";

async function bytesOf(file) {
  try {
    return new Uint8Array(await file.arrayBuffer());
  } catch (error) {
    throw new NotUsable(SAY.unreadableFile(file.name, error.message));
  }
}

/**
 * Tells three files apart: gives `{query, answer, proof}`, as bytes. A proof says that it is one. Of the other two, names
 * decide, and otherwise what reads as a query: `reads` says so of bytes.
 */
export async function toldApart(files, reads) {
  if (files.length !== 3) throw new NotUsable(SAY.needThree);
  const read = await Promise.all(files.map(async (file) => ({ name: file.name.toLowerCase(), bytes: await bytesOf(file) })));
  const proofs = read.filter(({ bytes }) => isProof(bytes));
  const proof = proofs.length > 1 ? proofs.find(({ name }) => name.includes("proof")) : proofs[0];
  if (proof === undefined) throw new NotUsable(SAY.noProofFile);
  const others = read.filter((file) => file !== proof);
  const query = (await queryOf(others, reads)) ?? null;
  if (query === null) throw new NotUsable(SAY.whichFile);
  const answer = others.find((file) => file !== query);
  return { query: query.bytes, answer: answer.bytes, proof: proof.bytes };
}

async function queryOf(files, reads) {
  const [first, second] = files;
  const isNamed = ({ name }) => /query|\.(overpassql|ql|oql)$/.test(name);
  if (isNamed(first) !== isNamed(second)) return isNamed(first) ? first : second;
  const isAnswer = ({ name }) => /answer|\.opl$/.test(name);
  if (isAnswer(first) !== isAnswer(second)) return isAnswer(first) ? second : first;
  const [firstReads, secondReads] = [await reads(first.bytes), await reads(second.bytes)];
  if (firstReads === secondReads) return null;
  return firstReads ? first : second;
}
