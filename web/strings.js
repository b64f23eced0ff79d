// All English texts of the page. A text with parts is a function of them.

/** Texts of elements, their labels and hints: index.html names them. */
export const TEXTS = {
  skip: "Skip to the query",
  title: "Ask a mirror, and check it",
  subtitle: "This page asks a mirror and checks its answer by itself. Only the root has to be right.",
  askForm: "Query",
  mirror: "Mirror",
  mirrorHelp: "Its address, as https://mirror.example, or that of a pack or its head, as https://files.example/town.pack. None is trusted.",
  root: "Root",
  rootHelp: "64 digits that the publisher of the data tells, not the mirror.",
  manageRoots: "Roots…",
  query: "Query",
  examples: "Examples",
  chooseExample: "Examples…",
  go: "Ask and check",
  stop: "Stop",
  share: "Share link",
  curl: "Copy as curl",
  history: "History",
  openFiles: "Open files…",
  result: "Result",
  views: "How the answer is shown",
  map: "Map",
  list: "List",
  text: "Text",
  downloads: "Download",
  addNodes: "Ask again, with the nodes of the ways",
  zoomIn: "Zoom in",
  zoomOut: "Zoom out",
  zoomFit: "Show everything",
  pointed: "Place under the pointer",
  mapHelp: "Drag or arrow keys move the map, the wheel or + and - zoom, 0 shows everything, a click shows an object.",
  listCaption: "Objects of the answer",
  object: "Object",
  tags: "Tags",
  parts: "Place or parts",
  moreRows: "Show more",
  objectDetails: "The chosen object",
  close: "Close",
  rootsTitle: "Roots",
  rootsText:
    "A root stands for one data set. Take it from its publisher, by a way that mirrors can't change. Roots stay in this browser, and no link has one.",
  rootName: "Name",
  rootDigits: "Root",
  saveRoot: "Save",
  historyTitle: "Asked before",
  clearHistory: "Clear",
  drop: "Drop the three files of prove: query, answer and proof",
  footer:
    "The check is the project's proved checker, compiled to WebAssembly. Take this page from the publisher or from your own disk: a page from the mirror that it checks is worth nothing.",
  themeLabel: "Colours: light, dark, or as the system has them",
};

export const THEMES = { auto: "Auto", light: "Light", dark: "Dark" };

/** Names of examples and their queries. */
export const EXAMPLES = [
  ["A node by its id", "node(1);out;"],
  ["A way with its nodes", "way(10);(._;>;);out;"],
  ["Nodes in a box", "node(52.4,13.3,52.6,13.5);out;"],
  ["Everything with a tag", 'nwr["highway"];(._;>;);out;'],
  ["What uses a node", "node(1);<<;out;"],
  ["Relations with their members", "rel(100);(._;>>;);out;"],
  ["Nodes in a box without a tag", "node(52.4,13.3,52.6,13.5)[!highway];out;"],
  ["Only the ids, with metadata for one", "way[highway]->.w;.w out ids;.w out meta 1;"],
];

/** What the codes of refused queries mean, and what to do about them. */
export const QUERY_CODES = {
  Q1: ["the query isn't UTF-8", "Send the query as UTF-8."],
  Q2: [
    "a character that can't come here",
    "Compare what stands before it with the grammar. {{bbox}} and other templates of overpass turbo have to be replaced by their values.",
  ],
  Q3: ["a text or a comment that isn't closed", "Close it with the quote that opened it, or with */."],
  Q4: ["a backslash that begins no escape", "Inside a text the escapes are \\\\ \\\" \\' \\n \\t and \\uXXXX."],
  Q5: [
    "a word that can't come here",
    "Statements are node, way, rel, nwr, out, recursions, unions and differences; keys with other characters than letters, digits and _ need quotes.",
  ],
  Q6: ["a number out of range, or with a point where none may be", "Ids and limits are whole numbers of 64 bits."],
  Q7: [
    "a part of Overpass QL that this server leaves out",
    "Left out are regular expressions, around, areas, foreach, evaluators, out count, geom, center and bb, and boxes on ways and relations. Ask for the nodes in the box and go up: node(..);<;",
  ],
  Q8: [
    "unions and differences nested more than 32 deep",
    "Write the inner ones as statements of their own, with -> and the name of a set.",
  ],
  Q9: ["the query has more than 65,536 bytes", "Split it into several queries."],
  Q10: [
    "a box that isn't valid",
    "A box is (south,west,north,east): latitudes from -90 to 90, longitudes from -180 to 180, south not above north.",
  ],
  Q11: ["the query ends too early", "A statement ends with ;. Is a bracket or the last ; missing?"],
};

/** What the codes of refused answers mean, and what to do about them. */
export const VERDICT_CODES = {
  C1: ["the query doesn't read", "Explain the code after it."],
  C2: ["the proof doesn't have the form of a proof", "Is it the proof's file, and was it fetched whole?"],
  C3: ["the digests of the proof's nodes don't rise", "The proof was changed, or written by another program."],
  C4: [
    "a node that the query needs isn't in the proof",
    "The mirror answers under another root than yours, or it left something out. Ask it for /api/root, and the publisher for the newest root.",
  ],
  C5: ["a node or the manifest is malformed", "The proof was made up, or the root isn't of an honestly built set."],
  C6: [
    "the proof's nodes disagree with each other",
    "The proof was made up, or the root isn't of an honestly built set.",
  ],
  C7: ["entries of the trees disagree with each other", "The root isn't of an honestly built set."],
  C8: ["a node of the proof isn't needed", "The proof belongs to another query, or something was added."],
  C9: ["the answer differs from what the proof shows", "The answer was changed. Ask another mirror."],
};

/** Why there is no answer from a pack, and what to do about it: by the reason's number (crates/osm_query_web/src/told.rt). */
export const PACK_REASONS = {
  1: ["the query doesn't read", ""],
  2: ["the file isn't a pack", "Is the address that of a file which osm_mirror pack has written?"],
  3: ["the pack has another version", "A newer page may read it."],
  4: ["the pack is cut short", "It wasn't copied whole. Take another copy."],
  5: ["there are bytes after the pack", "It was changed. Take another copy."],
  6: ["the pack ends before what it says of itself", "It was changed, or wasn't copied whole. Take another copy."],
  7: ["the pack is of another root than yours", "It has another data set, or another sequence of changes. Ask the publisher for the newest root, and for the pack of your root."],
  8: ["the pack hasn't a node that the query needs", "It was changed. Take another copy."],
  9: ["the pack has other bytes than the root stands for", "It was damaged or changed. Take another copy."],
  10: ["the query needs too many bytes of the pack", "Ask for less: a smaller box, or fewer statements."],
  11: ["what the root stands for isn't a set of objects", "The root isn't of an honestly built set."],
  12: ["the query is too much work", "Ask for less: a smaller box, or fewer statements."],
};

const KINDS = { n: "node", w: "way", r: "relation" };

const counted = (count, one, more = `${one}s`) => `${count.toLocaleString("en")} ${count === 1 ? one : more}`;

/** A size in bytes. */
export function size(bytes) {
  if (bytes < 1000) return counted(bytes, "byte");
  if (bytes < 1_000_000) return `${(bytes / 1000).toFixed(1)} KB`;
  return `${(bytes / 1_000_000).toFixed(1)} MB`;
}

/** A time in milliseconds. */
export function time(milliseconds) {
  if (milliseconds < 0.1) return "less than 0.1 ms";
  if (milliseconds < 10) return `${milliseconds.toFixed(1)} ms`;
  if (milliseconds < 10_000) return `${milliseconds.toFixed(0)} ms`;
  return `${(milliseconds / 1000).toFixed(1)} s`;
}

/** A root's first digits. */
export const shortRoot = (root) => `${root.slice(0, 8)}..`;

export const kindName = (kind) => KINDS[kind];

export const SAY = {
  // The verdict
  asking: (host) => `Asking ${host} …`,
  checking: (bytes) => `Checking a proof of ${size(bytes)} …`,
  yes: (root, milliseconds, proofBytes) =>
    `Complete and exact under root ${shortRoot(root)}, checked here in ${time(milliseconds)}; proof ${size(proofBytes)}`,
  no: (code, meaning) => `Not accepted (${code}): ${meaning}. The answer isn't shown.`,
  noMemory: "Not judged: there isn't enough memory in this page. The answer isn't shown.",
  badRoot: "Not judged: the root doesn't have 64 hexadecimal digits. The answer isn't shown.",
  crashed: (message) => `Not judged: the check broke off (${message}). The answer isn't shown.`,
  stopped: "Stopped. Nothing was judged.",
  otherRoot: (told, root) =>
    `The mirror says that it answers under root ${shortRoot(told)}, and yours is ${shortRoot(root)}: it has another data set, or another sequence of changes.`,
  answered: (objects, answerBytes, milliseconds, nodes) =>
    `${counted(objects, "object")}, ${size(answerBytes)}${milliseconds === null ? "" : `; the mirror took ${time(milliseconds)}`}; ${counted(nodes, "tree node")} read.`,
  fromFiles: "From files; no mirror was asked.",
  noModule: (message) => `The checker couldn't be loaded, so nothing can be checked: ${message}`,
  moduleMissing: (name) => `out/${name}.wasm isn't there. web/build makes it.`,

  // Packs
  reading: (requests, bytes) => `${counted(requests, "request")}, ${size(bytes)} …`,
  foundHere: (root, milliseconds) =>
    `Complete and exact under root ${shortRoot(root)}, found here in ${time(milliseconds)}; no mirror was asked`,
  found: (objects, answerBytes, { requests, received, size: all }) =>
    `${counted(objects, "object")}, ${size(answerBytes)}; ${counted(requests, "request")}, ${size(received)} of the pack's ${size(all)}.`,
  notFound: (meaning) => `No answer: ${meaning}.`,
  packUnreachable: (url) =>
    `${url} can't be read. Is the address right, does the server run, and does it let pages from elsewhere read (Access-Control-Allow-Origin)?`,
  endsBefore: (url) => `${url} ends before what the head says of it, or another file. Take another copy.`,
  noHead: (url, line) => `${url} isn't the head of a pack: its line ${line} is wrong.`,
  noPack: (url, status) => `${url} isn't there: the server says ${status}.`,
  packMoved: (url) => `The server refers from ${url} to another place, which isn't followed.`,
  noRanges: (url) => `The server of ${url} doesn't give parts of files, and the whole is too large for this page.`,
  otherRange: (url) => `The server of ${url} sent something else than the part that was asked for.`,
  packChanged: (url) => `${url} has changed meanwhile. Ask again.`,
  packBrokeOff: (message) => `The server broke off (${message}). Ask again.`,

  // The query
  fault: (code, line, column, meaning, advice) => `${code}, line ${line}, column ${column}: ${meaning}. ${advice}`,
  faultAtEnd: (code, meaning, advice) => `${code}, at the end: ${meaning}. ${advice}`,
  unknownFault: (code) => `The mirror refuses the query: ${code}`,
  refused: "The query is refused; its fault is marked.",

  // The mirror
  noRoot: "Choose a root first: without it nothing can be checked. Press “Roots…” to add the publisher's.",
  badMirror: "The mirror's address isn't one of the form https://mirror.example.",
  mixed: (url) => `This page came by https, so the browser doesn't let it ask ${url}. Take an address with https.`,
  unreachable: (url) => `No connection to ${url}. Is the address right, and does the mirror run?`,
  cors: (url) =>
    `${url} answers, but doesn't let pages from elsewhere read that (no Access-Control-Allow-Origin). Whoever runs it has to allow it, as examples/nginx.conf does.`,
  brokeOff: (message) => `The mirror broke off its answer (${message}). Ask again.`,
  receiving: (host, bytes) => `Receiving from ${host}: ${size(bytes)} …`,
  tooMuch: (bytes) => `The mirror sends more than ${size(bytes)}. Its answer isn't taken.`,
  notAMirror: (url) => `${url} isn't the address of a mirror: there is no /api/checked (404).`,
  malformed: "The mirror sent something else than an answer with its proof.",
  tooLarge: "The mirror takes no query of this size (413).",
  tooMany: "Too many requests: the mirror wants you to wait a moment (429).",
  mirrorMemory: "The mirror is out of memory (503). Ask later, or another mirror.",
  tooMuchWork: "The query is too much work for this mirror (503). Ask for less: a smaller box, or fewer statements.",
  mirrorDown: (status) => `The server before the mirror answers, but the mirror doesn't (${status}). Ask later, or another mirror.`,
  status: (status, text) => `The mirror says ${status}${text ? `: ${text}` : ""}.`,

  // The answer
  undrawn: (ways) =>
    `${counted(ways, "way")} can't be drawn: ${ways === 1 ? "its" : "their"} nodes aren't in the answer.`,
  unplaced: (count) => `${counted(count, "object")} without a place, as the out mode leaves it out, or a way has no nodes.`,
  relations: (count) => `${counted(count, "relation")} ${count === 1 ? "is" : "are"} in the list only.`,
  cutText: (bytes) => `\n… (${size(bytes)} in all; download it as OPL for the rest)`,
  canvas: (nodes, ways) => `Map of the answer: ${counted(nodes, "node")}, ${counted(ways, "way")} drawn`,
  empty: "The answer is empty: no object fits the query, and that is proved.",
  objectName: (kind, id) => `${KINDS[kind][0].toUpperCase()}${KINDS[kind].slice(1)} ${id}`,
  showObject: (kind, id) => `Show ${KINDS[kind]} ${id}`,
  wayParts: (count) => counted(count, "node"),
  relationParts: (count) => counted(count, "member"),
  location: (latitude, longitude) => `${latitude}, ${longitude}`,
  showing: (shown, all) => `Show more (${shown.toLocaleString("en")} of ${all.toLocaleString("en")})`,
  more: (count) => `and ${count.toLocaleString("en")} more`,
  fields: {
    version: "Version",
    changeset: "Changeset",
    timestamp: "Time",
    uid: "User id",
    user: "User",
    place: "Place",
    nodes: "Nodes",
    members: "Members",
    tags: "Tags",
  },
  noTags: "No tags",
  told: "Checked here:",
  converted: "Converted by this page:",
  again: "To check it again:",
  formats: {
    opl: ["OPL", "The answer as OPL, made by the checker from the proof"],
    json: ["JSON", "The answer as JSON, as Overpass has it, made by the checker from the proof"],
    xml: ["XML", "The answer as XML, as Overpass has it, made by the checker from the proof"],
    geojson: ["GeoJSON", "Converted by this page from the checked answer; the conversion isn't proved"],
    query: ["Query", "The query, to check it again offline"],
    proof: ["Proof", "The proof, to check it again offline"],
  },
  notTold: (status) =>
    status === "no memory" ? "There isn't enough memory in this page for this document." : `The document couldn't be made: ${status}.`,

  // Roots, history, links
  noRoots: "No root yet",
  chooseRoot: "No root chosen",
  rootOption: (name, root) => `${name} (${shortRoot(root)})`,
  removeRoot: (name) => `Remove ${name}`,
  remove: "Remove",
  use: "Use",
  rootSaved: (name) => `${name} is saved.`,
  badRootDigits: "A root has 64 hexadecimal digits.",
  unnamed: "Unnamed",
  noHistory: "Nothing was asked yet.",
  useAgain: (query) => `Use this query: ${query}`,
  linkTitle: "Link to this query",
  linkText: "It has the mirror and the query, and no root: whoever opens it needs the root from the publisher.",
  curlTitle: "The same by curl",
  curlText: "It prints the answer without a check. osm_mirror fetch asks with the proof, and checks.",
  commandTitle: "The same by osm_mirror",
  commandText: "It finds the answer in the pack by itself, as this page does. It speaks http and not https.",
  copied: "Copied.",
  notCopied: "Copy it from here:",

  // Files
  needThree: "Three files are needed: the query, the answer and the proof, as prove writes them.",
  noProofFile: "None of the three files is a proof: a proof begins with OSMP.",
  whichFile: "It isn't clear which file is the query and which the answer. Put “query” into the name of one.",
  unreadableFile: (name, message) => `${name} couldn't be read: ${message}`,
};
