// Streams over time, as a drawing: inputs and outputs on one axis.
import { short } from "./visible.mjs";

const SVG = "http://www.w3.org/2000/svg";
/** In a drawing of more events the rows that have most of them are drawn by columns. */
const MOST_DRAWN = 2000;
/** So many rows are drawn. */
const MOST_ROWS = 50;
const HEIGHT = 40;
const PAD = 8;
const LEFT = 110;
const RIGHT = 8;
const AFTER = 24;
const BREAK = 28;
/** A first time up to here is near to 0. */
const FAR = 1000n;
/** A value is written beside its step where there is room for it. */
const LETTER = 7;
/** So much is told of a time. */
const MOST_TOLD = 12;
const LONGEST_TOLD = 200;

function node(kind, attributes, ...inside) {
  const made = document.createElementNS(SVG, kind);
  for (const [name, value] of Object.entries(attributes)) made.setAttribute(name, value);
  made.append(...inside);
  return made;
}

function smaller(a, b) {
  return a < b ? a : b;
}

function greater(a, b) {
  return a > b ? a : b;
}

// ---- The axis

/** Round numbers from the least time to the greatest, about so many. */
function marks(low, high, count) {
  const raw = Math.max(Number(high - low) / count, 1);
  const power = 10 ** Math.floor(Math.log10(raw));
  const step = BigInt([1, 2, 5, 10].map(it => it * power).find(it => it >= raw) ?? 10 * power);
  const found = [];
  for (let t = ((low + step - 1n) / step) * step; t <= high; t += step) found.push(t);
  return found;
}

/**
 * Times are texts of digits: a number would not have all of those of 64 bits. Their distances from the first one are numbers. Where all times
 * but 0 are far from it, as those since 1970 are, the axis is broken after 0, at which constants have their event.
 */
class Axis {
  /** From the least time but 0 to the greatest, with some room after it, so that what begins then is seen. */
  constructor(low, high, width) {
    const isBroken = low > FAR && low > (high - low) * 5n;
    const from = isBroken ? low : 0n;
    const left = LEFT + (isBroken ? BREAK + (LETTER * String(high).length) / 2 : 0);
    Object.assign(this, { low: from, high, width, isBroken, left, right: width - RIGHT, isShort: high <= Number.MAX_SAFE_INTEGER });
    this.scale = (this.right - left - AFTER) / Math.max(Number(high - from), 1);
  }

  x(time) {
    if (this.isBroken && time === "0") return LEFT;
    const distance = this.isShort ? Number(time) - Number(this.low) : Number(BigInt(time) - this.low);
    return this.left + distance * this.scale;
  }

  draw(y) {
    const group = node("g", {});
    const count = Math.floor((this.right - this.left) / (LETTER * String(this.high).length + 60));
    for (const t of [...(this.isBroken ? [0n] : []), ...marks(this.low, this.high, Math.max(1, count))]) {
      const x = this.x(String(t));
      group.append(node("line", { class: "rule", x1: x, x2: x, y1: 0, y2: y }), node("text", { class: "dim", x, y: y + 15, "text-anchor": "middle" }, String(t)));
    }
    if (this.isBroken) group.append(node("text", { class: "dim", x: LEFT + BREAK / 2 + 2, y: y + 15, "text-anchor": "middle" }, "…"));
    return group;
  }
}

// ---- A row

/** How a row is drawn, by all of its values. */
function shapeOf(events) {
  if (events.every(it => it.value === "true" || it.value === "false")) return "band";
  if (events.every(it => /^-?[0-9]+$/.test(it.value))) return "step";
  return "flag";
}

class Row {
  /** `kind` is in, out or stranger; `end` is where its last value ends. */
  constructor({ name, events, kind }, top, axis, end) {
    Object.assign(this, { name, events, kind, top, axis, end, shape: shapeOf(events), bottom: top + HEIGHT - PAD });
  }

  draw(is_wide) {
    const group = node("g", { class: this.kind });
    group.append(this.label(), node("line", { class: "rule", x1: 0, x2: this.axis.width, y1: this.top + HEIGHT, y2: this.top + HEIGHT }));
    group.append(...(is_wide ? this.columns() : this[this.shape]()));
    return group;
  }

  label() {
    const told = this.kind === "stranger" ? `${short(this.name, 100)}: no input has this name` : short(this.name, 100);
    const place = { x: 6, y: this.top + HEIGHT / 2 + 6, class: this.kind === "out" ? "" : "dim" };
    return node("text", place, short(this.name, 13), node("title", {}, told));
  }

  next(k) {
    return k + 1 < this.events.length ? this.axis.x(this.events[k + 1].time) : this.end;
  }

  /** True for as long as a bar. */
  band() {
    const y = this.top + HEIGHT / 2 + 4;
    return this.events.map((it, k) => {
      const x = this.axis.x(it.time);
      const width = Math.max(this.next(k) - x, 1);
      if (it.value === "true") return node("rect", { class: "band", x, y: this.top + PAD + 6, width, height: HEIGHT - 2 * PAD - 4, rx: 2 });
      return node("line", { class: "low", x1: x, x2: x + width, y1: y, y2: y });
    });
  }

  height(value) {
    const [low, high] = this.range();
    return high === low ? this.top + HEIGHT / 2 + 4 : this.bottom - ((Number(value) - low) / (high - low)) * (HEIGHT - 2 * PAD - 4);
  }

  range() {
    if (!this.ends) {
      this.ends = [Infinity, -Infinity];
      for (const it of this.events) this.ends = [Math.min(this.ends[0], Number(it.value)), Math.max(this.ends[1], Number(it.value))];
    }
    return this.ends;
  }

  /** A number for as long as a step, with the number where there is room. */
  step() {
    let path = "";
    const words = [];
    this.events.forEach((it, k) => {
      const [x, y, to] = [this.axis.x(it.time), this.height(it.value), this.next(k)];
      path += `${k ? "L" : "M"}${x.toFixed(1)} ${y.toFixed(1)}H${to.toFixed(1)}`;
      if (to - x > LETTER * it.value.length + 4) words.push(node("text", { x: x + 3, y: y < this.top + 16 ? y + 13 : y - 3, class: "dim" }, it.value));
    });
    return [node("path", { class: "step", d: path }), ...words];
  }

  /** A flag for each event; what it says, where there is room. */
  flag() {
    return this.events.flatMap((it, k) => {
      const x = this.axis.x(it.time);
      const nodes = [node("path", { class: "flag", d: `M${x.toFixed(1)} ${this.bottom}V${this.top + PAD + 2}l8 4l-8 4` })];
      const room = this.next(k) - x - 12;
      if (it.value !== "()" && room > 3 * LETTER && room > LETTER * Math.min(it.value.length, 12))
        nodes.push(node("text", { x: x + 10, y: this.top + PAD + 10, class: "dim" }, short(it.value, Math.floor(room / LETTER) - 1)));
      return nodes;
    });
  }

  /** By columns of the drawing: for numbers from the least to the greatest, for truth values how many are true, else how many there are. */
  columns() {
    const columns = this.summed();
    const most = columns.reduce((a, it) => Math.max(a, it.count), 1);
    let path = "";
    columns.forEach((it, k) => {
      const [low, high] = this.shape === "step" ? [this.height(it.low), this.height(it.high)] : [this.bottom, this.rise(it, most)];
      path += `M${it.x} ${Math.max(low, high + 1).toFixed(1)}V${high.toFixed(1)}h1V${Math.max(low, high + 1).toFixed(1)}z`;
      if (this.shape === "step") path += this.held(it, columns[k + 1]?.x ?? Math.floor(this.end));
    });
    return [node("path", { class: "spread", d: path })];
  }

  /** The columns that have events, in order. */
  summed() {
    const columns = [];
    for (const it of this.events) {
      const x = Math.floor(this.axis.x(it.time));
      const value = this.shape === "step" ? Number(it.value) : it.value === "true" ? 1 : 0;
      const at = columns.at(-1);
      if (at?.x === x) Object.assign(at, { low: Math.min(at.low, value), high: Math.max(at.high, value), sum: at.sum + value, count: at.count + 1, last: value });
      else columns.push({ x, low: value, high: value, sum: value, count: 1, last: value });
    }
    return columns;
  }

  /** The last number of a column, up to the next one. */
  held(column, next) {
    const y = this.height(column.last);
    return next > column.x + 1 ? `M${column.x + 1} ${(y - 0.7).toFixed(1)}H${next}v1.4H${column.x + 1}z` : "";
  }

  rise(column, most) {
    const share = this.shape === "band" ? column.sum / column.count : column.count / most;
    return this.bottom - share * (HEIGHT - 2 * PAD - 4);
  }
}

/** Which rows are drawn by columns: from those with most events on, until the others have few enough. */
function wideOf(rows) {
  let sum = rows.reduce((a, it) => a + it.events.length, 0);
  const wide = new Set();
  for (const row of [...rows].sort((a, b) => b.events.length - a.events.length)) {
    if (sum <= MOST_DRAWN) break;
    wide.add(row);
    sum -= row.events.length;
  }
  return wide;
}

// ---- What stands at a time

/** The times of all events in order, each with what happens then. */
function instantsOf(streams, axis, fault) {
  const found = new Map(fault === undefined ? [] : [[fault, []]]);
  for (const { name, events, kind } of streams)
    for (const it of events) {
      if (!found.has(it.time)) found.set(it.time, []);
      found.get(it.time).push({ ...it, name, kind });
    }
  return [...found].map(([time, events]) => ({ time, x: axis.x(time), events })).sort((a, b) => a.x - b.x);
}

function closest(instants, x) {
  let [low, high] = [0, instants.length - 1];
  while (low < high) {
    const mid = (low + high) >> 1;
    if (instants[mid].x < x) low = mid + 1;
    else high = mid;
  }
  return low > 0 && x - instants[low - 1].x < instants[low].x - x ? low - 1 : low;
}

/** What stands at one time, in words: the lines of the trace, and the output. */
function tellOf({ time, events }, { lineOf, fault }) {
  const lines = events.slice(0, MOST_TOLD).map(it => {
    if (it.kind === "out") return `  → ${it.name} = ${it.value}`;
    return `line ${it.line}: ${(lineOf(it.line) ?? `${time}: ${it.name} = ${it.value}`).trim()}`;
  });
  if (events.length > MOST_TOLD) lines.push(`  and ${events.length - MOST_TOLD} more`);
  if (time === fault) lines.push(`  fault at ${time}`);
  return lines.map(it => short(it, LONGEST_TOLD)).join("\n");
}

// ---- The drawing

/** All streams, with their kinds: inputs, names that no input has, outputs. */
function streamsOf({ inputs, outputs, known }) {
  const kindOf = name => (known && !known.has(name) ? "stranger" : "in");
  const given = [...inputs.streams].map(([name, events]) => ({ name, events, kind: kindOf(name) }));
  const told = [...outputs.streams].map(([name, events]) => ({ name, events, kind: "out" }));
  return [...given.filter(it => it.kind === "in"), ...told, ...given.filter(it => it.kind !== "in")];
}

function axisOf(streams, last, fault, width) {
  const firsts = streams.map(it => it.events.find(event => event.time !== "0")?.time);
  const lasts = streams.map(it => it.events.at(-1).time);
  const [low, high] = [firsts, lasts].map(times => [...times, fault, last].filter(it => it !== undefined && it !== null && it !== "0").map(BigInt));
  return new Axis(low.reduce(smaller, high[0] ?? 0n), high.reduce(greater, 0n), width);
}

/**
 * Draws inputs and outputs into a box. `known` are the names of inputs, or null where these are not known; `fault` is the time of a fault,
 * `lineOf` gives a line of the trace by its number, `tell` is told what stands at the time under the pointer, or at that which the arrow keys choose.
 * It answers whether it drew anything.
 */
export function drawTimeline(box, given) {
  const streams = streamsOf(given);
  const { fault, inputs, outputs } = given;
  box.replaceChildren();
  if (!streams.length) return false;
  const width = Math.max(box.clientWidth - 2, 300);
  const axis = axisOf(streams, inputs.last, fault, width);
  const end = kind => (kind !== "out" || fault === undefined ? axis.right : axis.x(fault));
  const rows = streams.slice(0, MOST_ROWS).map((it, k) => new Row(it, k * HEIGHT, axis, end(it.kind)));
  const bottom = rows.length * HEIGHT;
  const label = `${inputs.streams.size} names in the trace and ${outputs.streams.size} outputs over time; the arrow keys go from one time to the next`;
  const more = streams.length - rows.length;
  const svg = node("svg", { width, height: bottom + (more ? 42 : 22), role: "img", tabindex: 0, "aria-label": label });
  const wide = wideOf(rows);
  svg.append(axis.draw(bottom), ...rows.map(it => it.draw(wide.has(it))));
  if (more) svg.append(node("text", { x: 6, y: bottom + 36, class: "dim" }, `and ${more} more streams`));
  if (fault !== undefined) svg.append(...faultAt(axis.x(fault), width, bottom));
  listen(svg, { ...given, axis, bottom, streams });
  box.append(svg);
  return true;
}

function faultAt(x, width, bottom) {
  const side = x > width - 70 ? { x: x - 4, "text-anchor": "end" } : { x: x + 4 };
  return [node("line", { class: "fault", x1: x, x2: x, y1: 0, y2: bottom }), node("text", { class: "fault", y: 12, ...side }, "fault")];
}

function listen(svg, given) {
  const { axis, bottom, streams, fault, tell } = given;
  const cursor = node("line", { class: "cursor", y1: 0, y2: bottom, visibility: "hidden" });
  svg.append(cursor);
  let instants = null;
  let chosen = -1;
  const choose = where => {
    instants ??= instantsOf(streams, axis, fault);
    chosen = Math.min(Math.max(where(instants), 0), instants.length - 1);
    const { x } = instants[chosen];
    for (const name of ["x1", "x2"]) cursor.setAttribute(name, x);
    cursor.setAttribute("visibility", "visible");
    tell(tellOf(instants[chosen], given));
  };
  svg.addEventListener("pointermove", event => {
    const x = event.clientX - svg.getBoundingClientRect().left;
    choose(found => closest(found, x));
  });
  svg.addEventListener("keydown", event => {
    const to = { ArrowRight: () => chosen + 1, ArrowLeft: () => chosen - 1, Home: () => 0, End: found => found.length - 1 }[event.key];
    if (!to) return;
    event.preventDefault();
    choose(to);
  });
}
