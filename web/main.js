// The page: asks a mirror, has the answer checked, and shows it only after a yes; or finds the answer in a pack by itself.

import { Answer } from "./answer.js";
import { Checker, NotJudged } from "./checker.js";
import { byId, element, writeTexts } from "./dom.js";
import { Editor, withNodes } from "./editor.js";
import { NotUsable, toldApart } from "./files.js";
import * as kept from "./kept.js";
import { NotAnswered, ask, mirrorAddress, refuseMixed } from "./mirror.js";
import { Packs, packAddress } from "./packs.js";
import { EXAMPLES, PACK_REASONS, SAY, TEXTS, THEMES, VERDICT_CODES } from "./strings.js";

const PAUSE = 250; // milliseconds without a key, before the query is looked at

writeTexts();

const checker = new Checker();
const editor = new Editor(byId("query"), byId("marks"), byId("fault"));
const packs = new Packs();
const answer = new Answer();
let asking = null; // the AbortController of what is under way

// ---- the verdict ----

function tell(state, text, details = "") {
  byId("verdict").dataset.state = state;
  byId("verdict").textContent = text;
  byId("details").textContent = details;
}

/** Runs one question; another one, or the stop button, ends it. */
async function run(question) {
  asking?.abort();
  const mine = new AbortController();
  asking = mine;
  answer.clear();
  byId("stop").hidden = false;
  document.body.dataset.busy = "true";
  try {
    await question(mine.signal);
  } catch (error) {
    if (asking === mine) tellFault(error);
  } finally {
    if (asking === mine) {
      asking = null;
      byId("stop").hidden = true;
      delete document.body.dataset.busy;
    }
  }
}

function tellFault(error) {
  const isKnown = error instanceof NotAnswered || error instanceof NotJudged || error instanceof NotUsable;
  tell("fault", isKnown ? error.message : String(error));
  if (error.refusal) showRefusal(error.refusal);
}

function showRefusal(line) {
  const [, code, byte] = /^(Q\d+) byte (\d+)$/.exec(line);
  editor.showFault(code, Number(byte));
  editor.goToFault();
}

function noRoot() {
  tell("fault", SAY.noRoot);
  byId("manage-roots").focus();
}

/** Asks the mirror, or the pack, whose address is given. */
async function askPlace() {
  const digits = byId("root").value;
  if (digits === "") return noRoot();
  const pack = packAddress(byId("mirror").value);
  await (pack === null ? askMirror(digits) : askPack(digits, pack));
}

/** Finds the answer in a pack. What is shown is the document that the proved library has made from nodes under the root. */
async function askPack(digits, pack) {
  const query = editor.query;
  const bytes = new TextEncoder().encode(query);
  const root = kept.rootBytes(digits);
  await run(async (signal) => {
    refuseMixed(pack);
    tell("wait", SAY.asking(new URL(pack).host));
    const onNews = ({ requests, received }) => (byId("details").textContent = SAY.reading(requests, received));
    const found = await packs.answer(pack, bytes, root, "opl", { signal, onNews });
    if (signal.aborted) return;
    if (found.status === "yes") {
      tell("yes", SAY.foundHere(digits, found.milliseconds));
      const tellIn = (form, guess) => packs.answer(pack, bytes, root, form, { guess });
      const objects = answer.show({ query: bytes, answer: found.document, tell: tellIn });
      byId("details").textContent = SAY.found(objects, found.document.length, found);
    } else if (found.status === "no") {
      tellNotFound(found);
    } else {
      tell("fault", SAY.noMemory);
    }
    keepAsked(query, pack);
  });
}

function tellNotFound({ reason, cause, place }) {
  const [meaning, advice] = PACK_REASONS[reason];
  const state = reason === 1 ? "fault" : "no";
  tell(state, reason === 1 ? SAY.refused : SAY.notFound(reason === 11 ? `E${cause}, ${meaning}` : meaning), advice);
  if (reason === 1) showRefusal(`Q${cause} byte ${place}`);
}

async function askMirror(digits) {
  const mirror = mirrorAddress(byId("mirror").value);
  if (mirror === null) {
    tell("fault", SAY.badMirror);
    return byId("mirror").focus();
  }
  const query = editor.query;
  await run(async (signal) => {
    const { host } = new URL(mirror);
    tell("wait", SAY.asking(host));
    const got = await ask(mirror, query, signal, (bytes) => (byId("details").textContent = SAY.receiving(host, bytes)));
    await judge(signal, { query, bytes: new TextEncoder().encode(query), digits, mirror, ...got });
  });
}

/**
 * Has an answer checked, and shows it after a yes. What is shown are the bytes that were checked. `bytes` are the query's,
 * and `query` is its text; `root` is what the mirror says of itself, if one was asked: it never decides anything.
 */
async function judge(signal, { query, bytes, digits, mirror = "", root = null, answer: opl, proof, milliseconds = null }) {
  tell("wait", SAY.checking(proof.length));
  const yours = kept.rootBytes(digits);
  const verdict = await checker.check(bytes, yours, opl, proof);
  if (signal.aborted) return;
  if (verdict.status === "yes") {
    tell("yes", SAY.yes(digits, verdict.milliseconds, proof.length));
    const tellIn = (form, guess) => checker.tell(form, bytes, yours, proof, guess);
    const objects = answer.show({ query: bytes, answer: opl, proof, tell: tellIn });
    const told = SAY.answered(objects, opl.length, milliseconds, verdict.fetched);
    byId("details").textContent = mirror === "" ? `${told} ${SAY.fromFiles}` : told;
  } else if (verdict.status === "no") {
    tellNo(verdict, digits, root);
  } else {
    tell("fault", verdict.status === "bad root" ? SAY.badRoot : SAY.noMemory);
  }
  keepAsked(query, mirror);
}

function keepAsked(query, place) {
  kept.keepAsked(query, place, byId("verdict").textContent);
  showMirrors();
}

function tellNo({ reason, cause, place }, digits, root) {
  const code = `C${reason}`;
  const [meaning, advice] = VERDICT_CODES[code];
  const full = reason === 1 ? `C1 Q${cause} ${place}` : reason === 9 ? `C9 ${place}` : code;
  const told = root === null ? digits : kept.hexOf(root);
  tell("no", SAY.no(full, meaning), told === digits ? advice : `${SAY.otherRoot(told, digits)} ${advice}`);
  if (reason === 1) editor.showFault(`Q${cause}`, place);
}

// ---- the query ----

let waiting = 0;

/** Looks at the query by the checker's own parser, a moment after the last key. */
function lookAtQuery() {
  clearTimeout(waiting);
  waiting = setTimeout(async () => {
    const bytes = editor.bytes;
    const query = editor.query;
    const fault = await checker.fault(bytes).catch(() => null);
    if (fault !== null && editor.query === query) editor.showFault(`Q${fault.cause}`, fault.place);
  }, PAUSE);
}

function addNodes() {
  const query = withNodes(editor.query);
  if (query === null) return;
  editor.query = query;
  askPlace();
}

// ---- files ----

async function openFiles(files) {
  const digits = byId("root").value;
  if (digits === "") return noRoot();
  await run(async (signal) => {
    const reads = async (bytes) => (await checker.fault(bytes)) === null;
    const found = await toldApart([...files], reads);
    if (signal.aborted) return;
    const query = new TextDecoder("utf-8", { ignoreBOM: true }).decode(found.query);
    editor.query = query;
    await judge(signal, { query, bytes: found.query, digits, answer: found.answer, proof: found.proof });
  });
}

function listenToDrops() {
  const hasFiles = (event) => [...(event.dataTransfer?.types ?? [])].includes("Files");
  addEventListener("dragover", (event) => {
    if (!hasFiles(event)) return;
    event.preventDefault();
    byId("drop").hidden = false;
  });
  addEventListener("dragleave", (event) => {
    if (event.relatedTarget === null) byId("drop").hidden = true;
  });
  addEventListener("drop", (event) => {
    if (!hasFiles(event)) return;
    event.preventDefault();
    byId("drop").hidden = true;
    openFiles(event.dataTransfer.files);
  });
}

// ---- roots ----

function showRoots() {
  const saved = kept.roots();
  const options = saved.map(({ name, digits }) => element("option", { value: digits, textContent: SAY.rootOption(name, digits) }));
  const none = element("option", { value: "", textContent: saved.length === 0 ? SAY.noRoots : SAY.chooseRoot });
  byId("root").replaceChildren(none, ...options);
  byId("root").value = saved.some(({ digits }) => digits === kept.chosenRoot()) ? kept.chosenRoot() : "";
  byId("saved-roots").replaceChildren(...saved.map(savedRoot));
}

function savedRoot({ name, digits }) {
  const remove = element("button", { type: "button", textContent: SAY.remove, onclick: () => removeRoot(digits) });
  remove.setAttribute("aria-label", SAY.removeRoot(name));
  return element("li", {}, element("span", {}, name), element("code", {}, digits), remove);
}

function removeRoot(digits) {
  kept.removeRoot(digits);
  showRoots();
  byId("root-name").focus();
}

function addRoot(event) {
  event.preventDefault();
  const digits = byId("root-digits").value.trim().toLowerCase();
  if (kept.rootBytes(digits) === null) {
    byId("root-fault").textContent = SAY.badRootDigits;
    byId("root-digits").setAttribute("aria-invalid", "true");
    return byId("root-digits").focus();
  }
  const name = byId("root-name").value.trim() || SAY.unnamed;
  kept.saveRoot(name, digits);
  kept.chooseRoot(digits);
  byId("root-digits").removeAttribute("aria-invalid");
  byId("add-root").reset();
  byId("root-fault").textContent = SAY.rootSaved(name);
  showRoots();
}

// ---- history, links and curl ----

function showHistory() {
  const all = kept.asked();
  byId("asked").replaceChildren(...(all.length === 0 ? [element("li", {}, SAY.noHistory)] : all.map(askedBefore)));
  byId("history").showModal();
}

function askedBefore({ query, mirror, when, verdict }) {
  const use = element("button", { type: "button", textContent: SAY.use, onclick: () => useAgain(query, mirror) });
  use.setAttribute("aria-label", SAY.useAgain(query));
  const where = [new Date(when).toLocaleString(), mirror, verdict].filter((it) => it !== "").join(" · ");
  return element("li", {}, element("span", {}, element("code", {}, query), element("br"), element("small", {}, where)), use);
}

function useAgain(query, mirror) {
  byId("history").close();
  editor.query = query;
  if (mirror !== "") byId("mirror").value = mirror;
  editor.focus();
}

function showMirrors() {
  byId("mirrors").replaceChildren(...kept.mirrors().map((value) => element("option", { value })));
}

/** A link to this page with mirror and query; it never has a root. */
function shareLink() {
  const words = new URLSearchParams({ mirror: byId("mirror").value, query: editor.query });
  return `${location.href.split("#")[0]}#${words}`;
}

const quoted = (word) => `'${word.replaceAll("'", "'\\''")}'`;

const curlCommand = () =>
  `curl --data-urlencode ${quoted(`data=${editor.query}`)} ${quoted(`${mirrorAddress(byId("mirror").value) ?? byId("mirror").value}/api/interpreter`)}`;

const queryCommand = (pack) => `osm_mirror query ${byId("root").value || "ROOT"} ${quoted(pack)} ${quoted(editor.query)}`;

/** Offers the words by which a program asks the same. */
function copyCommand() {
  const pack = packAddress(byId("mirror").value);
  if (pack === null) copy(SAY.curlTitle, SAY.curlText, curlCommand());
  else copy(SAY.commandTitle, SAY.commandText, queryCommand(pack));
}

async function copy(title, text, words) {
  byId("copied-title").textContent = title;
  byId("copied-words").value = words;
  const isCopied = await navigator.clipboard?.writeText(words).then(() => true, () => false);
  byId("copied-text").textContent = `${isCopied ? SAY.copied : SAY.notCopied} ${text}`;
  byId("copied").showModal();
  byId("copied-words").select();
}

/** Takes mirror and query from the link that opened the page. It doesn't ask: whoever opens a link decides that. */
function readLink() {
  const words = new URLSearchParams(location.hash.slice(1));
  byId("mirror").value = words.get("mirror") ?? kept.mirrors()[0] ?? (location.protocol.startsWith("http") ? location.origin : "");
  const query = words.get("query") ?? (editor.query || EXAMPLES[0][1]);
  if (query !== editor.query) editor.query = query;
}

// ---- colours ----

function showTheme() {
  const name = kept.theme();
  if (name === "auto") delete document.documentElement.dataset.theme;
  else document.documentElement.dataset.theme = name;
  byId("theme").textContent = THEMES[name];
  answer.recolour();
}

function nextTheme() {
  const names = Object.keys(THEMES);
  kept.keepTheme(names[(names.indexOf(kept.theme()) + 1) % names.length]);
  showTheme();
}

// ---- everything together ----

function showExamples() {
  const options = EXAMPLES.map(([name, query]) => element("option", { value: query, textContent: name }));
  byId("examples").replaceChildren(element("option", { value: "", textContent: TEXTS.chooseExample }), ...options);
  byId("examples").onchange = ({ target }) => {
    if (target.value !== "") editor.query = target.value;
    target.value = "";
    editor.focus();
  };
}

function listen() {
  byId("ask").onsubmit = (event) => {
    event.preventDefault();
    askPlace();
  };
  byId("query").addEventListener("input", lookAtQuery);
  byId("query").addEventListener("keydown", (event) => {
    if (event.key === "Enter" && (event.ctrlKey || event.metaKey)) askPlace();
  });
  byId("stop").onclick = () => {
    asking?.abort();
    checker.stop();
  };
  byId("add-nodes").onclick = addNodes;
  byId("share").onclick = () => copy(SAY.linkTitle, SAY.linkText, shareLink());
  byId("curl").onclick = copyCommand;
  byId("show-history").onclick = showHistory;
  byId("clear-history").onclick = () => {
    kept.clearAsked();
    byId("history").close();
  };
  byId("open-files").onclick = () => byId("files").click();
  byId("files").onchange = ({ target }) => {
    openFiles([...target.files]);
    target.value = "";
  };
  byId("manage-roots").onclick = () => {
    byId("root-fault").textContent = "";
    byId("roots").showModal();
  };
  byId("add-root").onsubmit = addRoot;
  byId("root").onchange = ({ target }) => kept.chooseRoot(target.value);
  for (const it of document.querySelectorAll("[data-close]")) it.onclick = () => it.closest("dialog").close();
  byId("theme").onclick = nextTheme;
  matchMedia("(prefers-color-scheme: dark)").addEventListener("change", () => answer.recolour());
  addEventListener("hashchange", readLink);
  listenToDrops();
}

showExamples();
showRoots();
showMirrors();
listen();
readLink();
showTheme();
checker.ready().then(
  () => (document.body.dataset.ready = "true"),
  (error) => tell("fault", error.message),
);
