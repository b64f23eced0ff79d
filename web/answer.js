// Shows an answer that was checked: as a map, as a list and as text, and the object that is chosen.

import { byId, download, element } from "./dom.js";
import { withNodes } from "./editor.js";
import { geoJsonOf, shapesOf } from "./geometry.js";
import { AnswerMap } from "./map.js";
import { keyOf, merged, readOpl } from "./opl.js";
import { SAY, kindName } from "./strings.js";

const ROWS = 500; // of the list at a time
const TEXT_LIMIT = 1_000_000; // characters of the text that are shown
const PARTS = 200; // nodes or members that are listed of an object

const VIEWS = ["map", "list", "text"];

// Documents that the checker makes: the type, and how many times as long as the OPL text a document may be; where it is
// longer, that costs time. ROUND is for what stands around the objects.
const DOCUMENTS = { opl: ["text/plain", 1], json: ["application/json", 10], xml: ["application/xml", 10] };
const TOLD = Object.keys(DOCUMENTS);
const ROUND = 1000;

export class Answer {
  #map;
  #objects = [];
  #byKey = new Map();
  #shown = 0;
  #bytes = new Uint8Array(0);
  #proof = null;
  #query = new Uint8Array(0);
  #tell = null;

  constructor() {
    this.#map = new AnswerMap(byId("canvas"), {
      onChoose: (object) => this.choose(object === null ? null : keyOf(object)),
      onPoint: (degrees) => (byId("pointed").textContent = degrees === null ? "" : placeText(degrees)),
    });
    this.#listen();
  }

  /**
   * Shows an answer that was checked. It and its query are bytes, and so is its proof, where there is one. `tell` makes documents
   * of it: from a form, and the number of bytes that the document may have, a promise of `{status, document}`. Gives how many
   * objects the answer has.
   */
  show({ query, answer, proof = null, tell }) {
    [this.#query, this.#bytes, this.#proof, this.#tell] = [query, answer, proof, tell];
    byId("as-proof").hidden = proof === null;
    const text = new TextDecoder().decode(answer);
    this.#objects = merged(readOpl(text));
    this.#byKey = new Map(this.#objects.map((object) => [keyOf(object), object]));
    const found = shapesOf(this.#objects);
    byId("answer").hidden = false;
    this.#showNotes(found);
    this.#showText(text);
    byId("rows").replaceChildren();
    this.#shown = 0;
    this.#addRows();
    this.choose(null);
    this.#view(found.shapes.length > 0 || this.#objects.length === 0 ? "map" : "list");
    this.#map.show(found);
    return this.#objects.length;
  }

  /** Shows no answer, and forgets the one that was shown. */
  clear() {
    byId("answer").hidden = true;
    [this.#objects, this.#byKey, this.#bytes] = [[], new Map(), new Uint8Array(0)];
    [this.#proof, this.#tell] = [null, null];
    byId("rows").replaceChildren();
    byId("opl").textContent = "";
    byId("download-fault").textContent = "";
    this.choose(null);
    this.#map.show({ shapes: [] });
  }

  /** Shows all that is known of the object of this key, and marks it on the map; null shows none. */
  choose(key) {
    const object = this.#byKey.get(key);
    byId("object").hidden = object === undefined;
    this.#map.choose(object === undefined ? null : key);
    if (object === undefined) return;
    byId("object-name").textContent = SAY.objectName(object.kind, object.id);
    byId("object-fields").replaceChildren(...this.#fieldsOf(object));
    byId("object-name").focus({ preventScroll: true });
  }

  recolour() {
    this.#map.recolour();
  }

  #listen() {
    byId("zoom-in").onclick = () => this.#map.zoom(2);
    byId("zoom-out").onclick = () => this.#map.zoom(0.5);
    byId("zoom-fit").onclick = () => this.#map.fit();
    byId("more-rows").onclick = () => this.#addRows();
    byId("close-object").onclick = () => {
      this.choose(null);
      VIEWS.map((name) => byId(`tab-${name}`))
        .find((tab) => tab.tabIndex === 0)
        .focus();
    };
    for (const name of VIEWS) {
      const tab = byId(`tab-${name}`);
      tab.onclick = () => this.#view(name);
      tab.onkeydown = (event) => this.#nextTab(event, name);
    }
    this.#offer(SAY.told, TOLD, (name) => this.#downloadTold(name));
    this.#offer(SAY.converted, ["geojson"], () => download("answer.geojson", "application/geo+json", geoJsonOf(this.#objects)));
    this.#offer(SAY.again, ["query", "proof"], (name) =>
      download(name, "application/octet-stream", name === "query" ? this.#query : this.#proof),
    );
  }

  /** Offers downloads, with what they are. */
  #offer(text, names, onChoose) {
    const buttons = names.map((name) => {
      const [textContent, title] = SAY.formats[name];
      return element("button", { type: "button", id: `as-${name}`, textContent, title, onclick: () => onChoose(name) });
    });
    byId("downloads").append(element("span", { className: "row" }, element("small", {}, text), ...buttons));
  }

  /** Has the document of the answer that is shown made, and hands it to the user. */
  async #downloadTold(form) {
    const [type, times] = DOCUMENTS[form];
    const tell = this.#tell;
    try {
      const { status, document } = await tell(form, times * this.#bytes.length + ROUND);
      if (tell !== this.#tell) return;
      if (status === "yes") download(`answer.${form}`, type, document);
      byId("download-fault").textContent = status === "yes" ? "" : SAY.notTold(status);
    } catch (error) {
      byId("download-fault").textContent = error.message;
    }
  }

  #view(chosen) {
    for (const name of VIEWS) {
      const tab = byId(`tab-${name}`);
      tab.setAttribute("aria-selected", String(name === chosen));
      tab.tabIndex = name === chosen ? 0 : -1;
      byId(`view-${name}`).hidden = name !== chosen;
    }
  }

  #nextTab(event, name) {
    const by = { ArrowRight: 1, ArrowLeft: VIEWS.length - 1 }[event.key];
    if (by === undefined) return;
    const next = VIEWS[(VIEWS.indexOf(name) + by) % VIEWS.length];
    this.#view(next);
    byId(`tab-${next}`).focus();
  }

  #showNotes({ undrawn, unplaced, relations }) {
    const notes = [];
    if (this.#objects.length === 0) notes.push(SAY.empty);
    if (undrawn > 0) notes.push(SAY.undrawn(undrawn));
    if (unplaced > 0) notes.push(SAY.unplaced(unplaced));
    if (relations > 0) notes.push(SAY.relations(relations));
    byId("notes").textContent = notes.join(" ");
    byId("add-nodes").hidden = undrawn === 0 || withNodes(new TextDecoder().decode(this.#query)) === null;
  }

  #showText(text) {
    const isCut = text.length > TEXT_LIMIT;
    byId("opl").textContent = isCut ? text.slice(0, TEXT_LIMIT) + SAY.cutText(this.#bytes.length) : text;
  }

  #addRows() {
    const next = this.#objects.slice(this.#shown, this.#shown + ROWS);
    byId("rows").append(...next.map((object) => this.#rowOf(object)));
    this.#shown += next.length;
    byId("more-rows").hidden = this.#shown >= this.#objects.length;
    byId("more-rows").textContent = SAY.showing(this.#shown, this.#objects.length);
  }

  #rowOf(object) {
    const name = SAY.objectName(object.kind, object.id);
    const button = this.#linkTo(object.kind, object.id, name);
    const tags = object.tags.map(([key, value]) => `${key}=${value}`).join(", ");
    return element("tr", {}, element("td", {}, button), element("td", {}, tags), element("td", {}, partsText(object)));
  }

  /** A button that shows an object, or its name where it isn't in the answer. */
  #linkTo(kind, id, text) {
    if (!this.#byKey.has(kind + id)) return text;
    const button = element("button", { type: "button", textContent: text, onclick: () => this.choose(kind + id) });
    button.setAttribute("aria-label", SAY.showObject(kind, id));
    return button;
  }

  #fieldsOf(object) {
    const names = SAY.fields;
    const fields = [];
    for (const field of ["version", "changeset", "timestamp", "uid", "user"]) {
      if (object[field] !== undefined && object[field] !== "") fields.push([names[field], object[field]]);
    }
    if (object.longitude !== undefined) fields.push([names.place, SAY.location(object.latitude, object.longitude)]);
    if (object.nodes !== undefined) fields.push([names.nodes, this.#listOf(object.nodes, (id) => this.#linkTo("n", id, id))]);
    if (object.members !== undefined) fields.push([names.members, this.#listOf(object.members, (it) => this.#memberOf(it))]);
    const pairs = (entries) => element("dl", {}, ...entries.flatMap(([name, value]) => [element("dt", {}, name), element("dd", {}, value)]));
    const tags = object.tags.length === 0 ? element("p", {}, SAY.noTags) : pairs(object.tags);
    return [tags, pairs(fields)];
  }

  #memberOf({ kind, id, role }) {
    return element("span", {}, this.#linkTo(kind, id, `${kindName(kind)} ${id}`), role === "" ? "" : ` (${role})`);
  }

  #listOf(items, made) {
    const parts = items.slice(0, PARTS).flatMap((item, at) => (at === 0 ? [made(item)] : [", ", made(item)]));
    if (items.length > PARTS) parts.push(" ", SAY.more(items.length - PARTS));
    return element("span", {}, ...parts);
  }
}

function placeText([longitude, latitude]) {
  return SAY.location(latitude.toFixed(6), longitude.toFixed(6));
}

function partsText({ longitude, latitude, nodes, members }) {
  if (longitude !== undefined) return SAY.location(latitude, longitude);
  if (nodes !== undefined) return SAY.wayParts(nodes.length);
  return members === undefined ? "" : SAY.relationParts(members.length);
}
