// A chart of numbers over splits, with the values under the pointer and by keyboard.

import { group } from "./numbers.js";

const SVG = "http://www.w3.org/2000/svg";
const SPACE = { right: 16, top: 14, bottom: 34 };
const LETTER = 7; // pixels of a digit of an axis

function shape(name, attributes, text) {
  const made = document.createElementNS(SVG, name);
  for (const [key, value] of Object.entries(attributes)) made.setAttribute(key, value);
  if (text !== undefined) made.textContent = text;
  return made;
}

// Round numbers from low to high, about as many as wanted.
function ticks(low, high, wanted) {
  const rough = Math.max(1, (high - low) / wanted);
  const power = 10 ** Math.floor(Math.log10(rough));
  const step = [1, 2, 5, 10].map((k) => k * power).find((k) => k >= rough);
  const found = [];
  for (let t = Math.ceil(low / step) * step; t <= high; t += step) found.push(t);
  return found;
}

export class Chart {
  // told: { label, axis, height, series: [{ class, first, values }], band, spans, points: [{ x, y, glyph, class, text }], read(x), at }
  constructor(holder) {
    this.holder = holder;
    this.svg = shape("svg", { class: "chart", tabindex: 0, role: "slider", "aria-orientation": "horizontal" });
    this.read = document.createElement("output");
    this.read.className = "reading";
    holder.append(this.svg, this.read);
    this.svg.addEventListener("pointermove", (event) => this.point(event));
    this.svg.addEventListener("pointerdown", (event) => this.point(event));
    this.svg.addEventListener("pointerleave", () => document.activeElement !== this.svg && this.show(this.told?.at));
    this.svg.addEventListener("keydown", (event) => this.key(event));
    new ResizeObserver(() => this.told && this.draw(this.told)).observe(holder);
  }

  draw(told) {
    this.told = told;
    this.width = Math.max(300, this.holder.clientWidth);
    this.height = told.height || 260;
    this.svg.setAttribute("viewBox", `0 0 ${this.width} ${this.height}`);
    this.svg.setAttribute("height", this.height);
    this.svg.setAttribute("aria-label", told.label);
    const all = told.series.concat(told.band ? [{ first: told.band.first, values: told.band.low }, { first: told.band.first, values: told.band.high }] : []);
    this.first = Math.min(...all.map((one) => one.first));
    this.last = Math.max(...all.map((one) => one.first + one.values.length - 1));
    let low = Infinity, high = -Infinity;
    for (const one of all) for (const value of one.values) {
      if (value < low) low = value;
      if (value > high) high = value;
    }
    const room = Math.max(1, (high - low) * 0.08);
    this.low = low - room;
    this.high = high + room;
    this.left = 22 + LETTER * Math.max(...ticks(this.low, this.high, 4).map((t) => group(t).length));
    this.svg.replaceChildren();
    this.frame();
    this.lines();
    this.marks();
    this.cursor = shape("line", { class: "cursor", y1: SPACE.top, y2: this.height - SPACE.bottom });
    this.svg.append(this.cursor);
    this.svg.setAttribute("aria-valuemin", this.first);
    this.svg.setAttribute("aria-valuemax", this.last);
    this.show(Math.max(this.first, Math.min(this.last, this.now ?? told.at)), this.now === undefined);
    this.now = undefined;
  }

  x(split) {
    const span = this.last - this.first;
    return span ? this.left + ((split - this.first) / span) * (this.width - this.left - SPACE.right) : (this.width + this.left) / 2;
  }

  y(value) {
    return this.height - SPACE.bottom - ((value - this.low) / (this.high - this.low)) * (this.height - SPACE.top - SPACE.bottom);
  }

  frame() {
    for (const t of ticks(this.low, this.high, 4)) {
      this.svg.append(shape("line", { class: "rule", x1: this.left, x2: this.width - SPACE.right, y1: this.y(t), y2: this.y(t) }));
      this.svg.append(shape("text", { class: "tick", x: this.left - 8, y: this.y(t) + 4, "text-anchor": "end" }, group(t)));
    }
    const base = this.height - SPACE.bottom;
    for (const t of ticks(this.first, this.last, this.width > 600 ? 8 : 4)) {
      this.svg.append(shape("line", { class: "rule", x1: this.x(t), x2: this.x(t), y1: base, y2: base + 4 }));
      this.svg.append(shape("text", { class: "tick", x: this.x(t), y: base + 16, "text-anchor": "middle" }, group(t)));
    }
    this.svg.append(shape("text", { class: "axis", x: this.width - SPACE.right, y: this.height - 3, "text-anchor": "end" }, this.told.axis));
  }

  path(first, values) {
    return values.map((value, k) => `${k ? "L" : "M"}${this.x(first + k).toFixed(1)} ${this.y(value).toFixed(1)}`).join("");
  }

  lines() {
    const { band, spans, series } = this.told;
    if (band) {
      const back = band.low.map((value, k) => `L${this.x(band.first + k).toFixed(1)} ${this.y(value).toFixed(1)}`).reverse().join("");
      this.svg.append(shape("path", { class: "band", d: this.path(band.first, band.high) + back + "Z" }));
    }
    for (const [a, b] of spans || []) {
      const base = this.height - SPACE.bottom;
      this.svg.append(shape("line", { class: "span", x1: this.x(a) - 2, x2: this.x(b) + 2, y1: base, y2: base }));
    }
    for (const one of series) {
      if (one.values.length > 1) this.svg.append(shape("path", { class: `line ${one.class}`, d: this.path(one.first, one.values) }));
      else this.svg.append(shape("circle", { class: `dot ${one.class}`, cx: this.x(one.first), cy: this.y(one.values[0]), r: 3 }));
    }
  }

  // The signs of chosen splits; their words where there is room.
  marks() {
    const points = (this.told.points || []).map((point) => ({ ...point, x: this.x(point.x), y: this.y(point.y) }));
    for (const { x, y, glyph, class: kind } of points) {
      this.svg.append(shape("text", { class: `sign ${kind}`, x, y: y + 6, "text-anchor": "middle", "aria-hidden": "true" }, glyph));
    }
    const placed = points.map(({ x, y }) => ({ x, y: y + 4, half: 8 }));
    for (const point of points) {
      const { x, y } = point;
      if (!point.text) continue;
      const half = point.text.length * 3.4;
      const middle = Math.max(this.left + half, Math.min(this.width - SPACE.right - half, x));
      const covers = (at) => placed.some((p) => Math.abs(p.x - middle) < p.half + half + 6 && Math.abs(p.y - at) < 14);
      const free = [y + 22, y - 14].find((at) => at < this.height - SPACE.bottom - 2 && !covers(at)) ?? (point.always ? y - 14 : undefined);
      if (free === undefined) continue;
      placed.push({ x: middle, y: free, half });
      this.svg.append(shape("text", { class: `words ${point.class}`, x: middle, y: free, "text-anchor": "middle" }, point.text));
    }
  }

  show(split, quiet = false) {
    if (split === undefined || split === null) return;
    this.split = split;
    this.cursor.setAttribute("x1", this.x(split));
    this.cursor.setAttribute("x2", this.x(split));
    const text = this.told.read(split);
    this.read.textContent = text;
    this.svg.setAttribute("aria-valuenow", split);
    this.svg.setAttribute("aria-valuetext", text);
    this.cursor.classList.toggle("quiet", quiet);
  }

  point(event) {
    const box = this.svg.getBoundingClientRect();
    const inside = ((event.clientX - box.left) / box.width) * this.width;
    const share = (inside - this.left) / (this.width - this.left - SPACE.right);
    this.show(Math.max(this.first, Math.min(this.last, Math.round(this.first + share * (this.last - this.first)))));
  }

  key(event) {
    const page = Math.max(1, Math.round((this.last - this.first) / 10));
    const steps = { ArrowLeft: -1, ArrowDown: -1, ArrowRight: 1, ArrowUp: 1, PageDown: -page, PageUp: page, Home: this.first - this.split, End: this.last - this.split };
    if (!(event.key in steps)) return;
    event.preventDefault();
    this.show(Math.max(this.first, Math.min(this.last, this.split + steps[event.key])));
  }
}
