// The answer on a canvas: points, lines and outlines by Web Mercator, from the answer's own places alone.

import { SAY } from "./strings.js";
import { keyOf } from "./opl.js";

const MARGIN = 40; // pixels round the answer when all of it is shown
const NEAR = 8; // how many pixels a click may be off
const RADIUS = 4; // of a point
const STEP = 80; // pixels that an arrow key moves the map
const CLOSEST = 2 ** 26; // pixels for the whole world at the closest zoom, times 256
const LIMIT = 85.0511287798066; // degrees of latitude that Web Mercator shows

/** Longitude and latitude in degrees as a place in the square of the world, from 0 to 1. */
export function project([longitude, latitude]) {
  const bounded = Math.max(-LIMIT, Math.min(LIMIT, latitude));
  const sine = Math.sin((bounded * Math.PI) / 180);
  return [longitude / 360 + 0.5, 0.5 - Math.log((1 + sine) / (1 - sine)) / (4 * Math.PI)];
}

/** The degrees of a place in the square of the world. */
export function unproject([x, y]) {
  return [(x - 0.5) * 360, (Math.atan(Math.sinh(Math.PI * (1 - 2 * y))) * 180) / Math.PI];
}

export class AnswerMap {
  #canvas;
  #context;
  #shapes = [];
  #chosen = null;
  #center = [0.5, 0.5];
  #scale = 256; // pixels for the whole world
  #width = 0;
  #height = 0;
  #isFitted = false;
  #colours = {};
  #drawing = 0;
  #pointers = new Map();
  #moved = 0;

  /** `onChoose` is called with the object that was clicked, or null; `onPoint` with the place under the pointer. */
  constructor(canvas, { onChoose, onPoint }) {
    this.#canvas = canvas;
    this.#context = canvas.getContext("2d");
    this.onChoose = onChoose;
    this.onPoint = onPoint;
    new ResizeObserver(() => this.#resized()).observe(canvas);
    this.#listen();
  }

  /** Shows these shapes (geometry.js), all of them at first. */
  show({ shapes }) {
    this.#shapes = shapes.map(placed);
    this.#chosen = null;
    const points = shapes.filter(({ form }) => form === "point").length;
    this.#canvas.setAttribute("aria-label", SAY.canvas(points, shapes.length - points));
    this.fit();
  }

  /** Marks the object of this key, and moves it into sight; null marks none. */
  choose(key) {
    this.#chosen = key;
    const shape = this.#shapes.find((it) => it.key === key);
    if (shape !== undefined && !meets(this.#sight(), shape.box)) {
      this.#center = [(shape.box[0] + shape.box[2]) / 2, (shape.box[1] + shape.box[3]) / 2];
    }
    this.redraw();
  }

  /** Shows everything. */
  fit() {
    this.#measure();
    this.#isFitted = this.#width > 0;
    const box = this.#shapes.reduce((all, { box }) => joined(all, box), null) ?? [0, 0, 1, 1];
    this.#center = [(box[0] + box[2]) / 2, (box[1] + box[3]) / 2];
    const across = (this.#width - 2 * MARGIN) / Math.max(box[2] - box[0], 1e-12);
    const down = (this.#height - 2 * MARGIN) / Math.max(box[3] - box[1], 1e-12);
    // A single point isn't shown at the closest zoom.
    this.#scale = clampScale(Math.min(across, down, 256 * 2 ** 17));
    this.redraw();
  }

  /** Zooms by a factor; the place at this pixel stays where it is. */
  zoom(factor, pixel = [this.#width / 2, this.#height / 2]) {
    const before = this.#placeAt(pixel);
    this.#scale = clampScale(this.#scale * factor);
    const after = this.#placeAt(pixel);
    this.#center = [this.#center[0] + before[0] - after[0], this.#center[1] + before[1] - after[1]];
    this.redraw();
  }

  move(x, y) {
    this.#center = [this.#center[0] - x / this.#scale, Math.max(0, Math.min(1, this.#center[1] - y / this.#scale))];
    this.redraw();
  }

  /** Reads the colours of the style sheet again, and draws. */
  recolour() {
    this.#colours = {};
    this.redraw();
  }

  /** Draws before the next frame. */
  redraw() {
    this.#drawing ||= requestAnimationFrame(() => {
      this.#drawing = 0;
      this.#draw();
    });
  }

  // ---- drawing ----

  #draw() {
    const context = this.#context;
    const ratio = devicePixelRatio || 1;
    context.setTransform(ratio, 0, 0, ratio, 0, 0);
    context.clearRect(0, 0, this.#width, this.#height);
    this.#drawGrid();
    const sight = this.#sight();
    const seen = this.#shapes.filter(({ box }) => meets(sight, box));
    for (const shape of seen) if (shape.form !== "point") this.#drawWay(shape, this.#colour("way"), 2);
    context.fillStyle = this.#colour("point");
    for (const shape of seen) if (shape.form === "point") this.#drawPoint(shape, RADIUS);
    const chosen = seen.find(({ key }) => key === this.#chosen);
    if (chosen !== undefined) this.#drawChosen(chosen);
  }

  #drawChosen(shape) {
    this.#context.fillStyle = this.#colour("chosen");
    if (shape.form === "point") this.#drawPoint(shape, RADIUS + 3);
    else this.#drawWay(shape, this.#colour("chosen"), 4);
  }

  #drawPoint({ places: [place] }, radius) {
    const [x, y] = this.#pixel(place);
    this.#context.beginPath();
    this.#context.arc(x, y, radius, 0, 2 * Math.PI);
    this.#context.fill();
  }

  #drawWay({ places, form }, colour, width) {
    const context = this.#context;
    context.beginPath();
    for (const place of places) context.lineTo(...this.#pixel(place));
    if (form === "outline") {
      context.fillStyle = this.#colour("area");
      context.fill();
    }
    context.strokeStyle = colour;
    context.lineWidth = width;
    context.lineJoin = "round";
    context.stroke();
  }

  /** Lines of longitude and latitude, at a round number of degrees. */
  #drawGrid() {
    const step = roundStep((120 / this.#scale) * 360);
    const [west, north] = unproject(this.#placeAt([0, 0]));
    const [east, south] = unproject(this.#placeAt([this.#width, this.#height]));
    const context = this.#context;
    context.strokeStyle = this.#colour("grid");
    context.lineWidth = 1;
    context.beginPath();
    for (let at = Math.ceil(west / step) * step; at <= east; at += step) {
      const x = Math.round(this.#pixel(project([at, 0]))[0]) + 0.5;
      context.moveTo(x, 0);
      context.lineTo(x, this.#height);
    }
    for (let at = Math.ceil(south / step) * step; at <= north; at += step) {
      const y = Math.round(this.#pixel(project([0, at]))[1]) + 0.5;
      context.moveTo(0, y);
      context.lineTo(this.#width, y);
    }
    context.stroke();
  }

  #colour(name) {
    this.#colours[name] ??= getComputedStyle(document.documentElement).getPropertyValue(`--${name}`).trim();
    return this.#colours[name];
  }

  // ---- places and pixels ----

  #measure() {
    [this.#width, this.#height] = [this.#canvas.clientWidth, this.#canvas.clientHeight];
  }

  #pixel([x, y]) {
    return [(x - this.#center[0]) * this.#scale + this.#width / 2, (y - this.#center[1]) * this.#scale + this.#height / 2];
  }

  #placeAt([x, y]) {
    return [(x - this.#width / 2) / this.#scale + this.#center[0], (y - this.#height / 2) / this.#scale + this.#center[1]];
  }

  /** The box that is shown, and a little more. */
  #sight() {
    return [...this.#placeAt([-10, -10]), ...this.#placeAt([this.#width + 10, this.#height + 10])];
  }

  /** The canvas has another size, or is shown again. */
  #resized() {
    if (this.#canvas.clientWidth === 0) return;
    this.#measure();
    const ratio = devicePixelRatio || 1;
    this.#canvas.width = Math.round(this.#width * ratio);
    this.#canvas.height = Math.round(this.#height * ratio);
    if (this.#isFitted) this.redraw();
    else this.fit();
  }

  /** The shape nearest to a pixel: points before lines, lines before the insides of outlines. */
  #shapeAt(pixel) {
    let best = null;
    const sight = this.#sight();
    for (const shape of this.#shapes) {
      if (!meets(sight, shape.box)) continue;
      const distance = this.#distance(shape, pixel);
      const rank = shape.form === "point" ? 0 : distance > NEAR ? 2 : 1;
      const isInside = shape.form === "outline" && this.#holds(shape, pixel);
      if (distance > NEAR + (rank === 0 ? RADIUS : 0) && !isInside) continue;
      if (best === null || rank < best.rank || (rank === best.rank && distance < best.distance)) best = { shape, rank, distance };
    }
    return best?.shape ?? null;
  }

  #distance({ places }, pixel) {
    const points = places.map((place) => this.#pixel(place));
    if (points.length === 1) return Math.hypot(points[0][0] - pixel[0], points[0][1] - pixel[1]);
    let least = Infinity;
    for (let at = 1; at < points.length; at++) least = Math.min(least, distanceToLine(pixel, points[at - 1], points[at]));
    return least;
  }

  #holds({ places }, pixel) {
    const [x, y] = this.#placeAt(pixel);
    let inside = false;
    for (let at = 1; at < places.length; at++) {
      const [[x1, y1], [x2, y2]] = [places[at - 1], places[at]];
      if (y1 > y !== y2 > y && x < ((x2 - x1) * (y - y1)) / (y2 - y1) + x1) inside = !inside;
    }
    return inside;
  }

  // ---- pointer, wheel and keys ----

  #listen() {
    const canvas = this.#canvas;
    canvas.addEventListener("pointerdown", (event) => this.#pressed(event));
    canvas.addEventListener("pointermove", (event) => this.#dragged(event));
    canvas.addEventListener("pointerup", (event) => this.#released(event));
    canvas.addEventListener("pointercancel", (event) => this.#pointers.delete(event.pointerId));
    canvas.addEventListener("pointerleave", () => this.onPoint(null));
    canvas.addEventListener("wheel", (event) => this.#turned(event), { passive: false });
    canvas.addEventListener("keydown", (event) => this.#typed(event));
  }

  #pressed(event) {
    this.#canvas.setPointerCapture(event.pointerId);
    if (this.#pointers.size === 0) this.#moved = 0;
    this.#pointers.set(event.pointerId, [event.offsetX, event.offsetY]);
  }

  #dragged(event) {
    const now = [event.offsetX, event.offsetY];
    this.onPoint(unproject(this.#placeAt(now)));
    const before = this.#pointers.get(event.pointerId);
    if (before === undefined) return;
    const others = [...this.#pointers].filter(([id]) => id !== event.pointerId).map(([, place]) => place);
    this.#pointers.set(event.pointerId, now);
    this.#moved += Math.hypot(now[0] - before[0], now[1] - before[1]);
    if (others.length === 0) this.move(now[0] - before[0], now[1] - before[1]);
    else this.#pinched(others[0], before, now);
  }

  #pinched(other, before, now) {
    const span = (place) => Math.max(1, Math.hypot(place[0] - other[0], place[1] - other[1]));
    this.zoom(span(now) / span(before), [(other[0] + now[0]) / 2, (other[1] + now[1]) / 2]);
  }

  #released(event) {
    const wasPressed = this.#pointers.delete(event.pointerId);
    if (!wasPressed || this.#pointers.size > 0 || this.#moved > 4) return;
    const shape = this.#shapeAt([event.offsetX, event.offsetY]);
    this.onChoose(shape?.object ?? null);
  }

  #turned(event) {
    event.preventDefault();
    const lines = event.deltaMode === 0 ? event.deltaY / 100 : event.deltaY / 3;
    this.zoom(2 ** -Math.max(-2, Math.min(2, lines)), [event.offsetX, event.offsetY]);
  }

  #typed(event) {
    const moves = { ArrowLeft: [STEP, 0], ArrowRight: [-STEP, 0], ArrowUp: [0, STEP], ArrowDown: [0, -STEP] };
    if (event.ctrlKey || event.altKey || event.metaKey) return;
    if (event.key in moves) this.move(...moves[event.key]);
    else if (event.key === "+" || event.key === "=") this.zoom(2);
    else if (event.key === "-") this.zoom(0.5);
    else if (event.key === "0") this.fit();
    else if (event.key === "Escape") this.onChoose(null);
    else return;
    event.preventDefault();
  }
}

/** A shape in the square of the world, with the box that it fills there. */
function placed({ object, form, points }) {
  const places = points.map(project);
  const box = places.reduce((all, [x, y]) => joined(all, [x, y, x, y]), null);
  return { object, key: keyOf(object), form, places, box };
}

function joined(first, second) {
  if (first === null) return second;
  return [
    Math.min(first[0], second[0]),
    Math.min(first[1], second[1]),
    Math.max(first[2], second[2]),
    Math.max(first[3], second[3]),
  ];
}

const meets = (first, second) =>
  first[0] <= second[2] && first[2] >= second[0] && first[1] <= second[3] && first[3] >= second[1];

const clampScale = (scale) => Math.max(128, Math.min(256 * CLOSEST, scale));

/** The least of 1, 2, 5, 10, .. times a power of ten that is as large as this, at most 45 degrees. */
function roundStep(degrees) {
  const power = 10 ** Math.floor(Math.log10(degrees));
  const step = [1, 2, 5, 10].map((it) => it * power).find((it) => it >= degrees);
  return Math.min(45, step);
}

function distanceToLine([x, y], [x1, y1], [x2, y2]) {
  const square = (x2 - x1) ** 2 + (y2 - y1) ** 2;
  const along = square === 0 ? 0 : Math.max(0, Math.min(1, ((x - x1) * (x2 - x1) + (y - y1) * (y2 - y1)) / square));
  return Math.hypot(x - x1 - along * (x2 - x1), y - y1 - along * (y2 - y1));
}
