// What of an answer has a place: nodes as points, ways as lines and outlines.

import { keyOf } from "./opl.js";

const hasPlace = (node) => node.longitude !== undefined && node.latitude !== undefined;

const pointOf = (node) => [Number(node.longitude), Number(node.latitude)];

// Closed ways with one of these are lines all the same, as a roundabout is.
const LINES = new Set(["highway", "barrier", "railway", "waterway", "power", "route"]);

function isOutline(way, ends) {
  if (ends.length < 4 || way.nodes[0] !== way.nodes[way.nodes.length - 1]) return false;
  const tags = new Map(way.tags);
  if (tags.has("area")) return tags.get("area") !== "no";
  return !way.tags.some(([key]) => LINES.has(key));
}

/**
 * The shapes of objects, each with the object, `points` (longitude and latitude in degrees) and `form`: "point", "line" or
 * "outline". `undrawn` counts the ways of which a node isn't here, `unplaced` the nodes and ways of which no line says where
 * they are, `relations` the relations.
 */
export function shapesOf(objects) {
  const places = new Map();
  for (const object of objects) {
    if (object.kind === "n" && hasPlace(object)) places.set(object.id, pointOf(object));
  }
  const found = { shapes: [], undrawn: 0, unplaced: 0, relations: 0 };
  for (const object of objects) {
    if (object.kind === "n") addNode(found, object, places);
    else if (object.kind === "w") addWay(found, object, places);
    else found.relations += 1;
  }
  return found;
}

function addNode(found, object, places) {
  const point = places.get(object.id);
  if (point === undefined) found.unplaced += 1;
  else found.shapes.push({ object, form: "point", points: [point] });
}

function addWay(found, object, places) {
  const points = (object.nodes ?? []).map((id) => places.get(id));
  if (points.length < 2) found.unplaced += 1;
  else if (points.every((point) => point !== undefined)) found.shapes.push({ object, form: isOutline(object, points) ? "outline" : "line", points });
  else found.undrawn += 1;
}

/** The answer as GeoJSON: features with a place; relations and what can't be drawn have none (null). */
export function geoJsonOf(objects) {
  const { shapes } = shapesOf(objects);
  const byKey = new Map(shapes.map((shape) => [keyOf(shape.object), shape]));
  const features = objects.map((object) => featureOf(object, byKey.get(keyOf(object))));
  return JSON.stringify({ type: "FeatureCollection", features }, null, 1);
}

function featureOf(object, shape) {
  const type = { n: "node", w: "way", r: "relation" }[object.kind];
  const properties = { "@id": `${type}/${object.id}`, ...Object.fromEntries(object.tags) };
  for (const field of ["version", "changeset", "timestamp", "uid", "user"]) {
    if (object[field] !== undefined && object[field] !== "") properties[`@${field}`] = object[field];
  }
  if (object.members !== undefined) properties["@members"] = object.members;
  return { type: "Feature", id: `${type}/${object.id}`, properties, geometry: geometryOf(shape) };
}

function geometryOf(shape) {
  if (shape === undefined) return null;
  if (shape.form === "point") return { type: "Point", coordinates: shape.points[0] };
  if (shape.form === "line") return { type: "LineString", coordinates: shape.points };
  return { type: "Polygon", coordinates: [counterclockwise(shape.points)] };
}

/** An outer ring runs counterclockwise (RFC 7946, 3.1.6). */
function counterclockwise(ring) {
  let twice = 0;
  for (let at = 1; at < ring.length; at++) twice += ring[at - 1][0] * ring[at][1] - ring[at][0] * ring[at - 1][1];
  return twice < 0 ? ring.toReversed() : ring;
}
