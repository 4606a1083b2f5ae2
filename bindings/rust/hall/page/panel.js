// A canvas that shows a device's drawing, with what the pointer adds at the desk.

import { TURN } from "./geometry.js";

const PAPER = "#fbfaf6";
const LINE = "#22303c";
const ROUND = "#a5521d";
const FREEFORM = "#1c6b8c";
const CONSTRUCTION = "#8fa3b0";
const AWAY = "#c2352b";
const HIGHLIGHT = "#d6249f";
const LIT = "#e9b44c";

const PENS = {
  line: { colour: LINE, width: 1.6 },
  arc: { colour: ROUND, width: 2.2 },
  circle: { colour: ROUND, width: 2.2 },
  bezier: { colour: FREEFORM, width: 2.8 },
  conic: { colour: FREEFORM, width: 2.8 },
};
const AWAY_PEN = { colour: AWAY, width: 1.5, dash: [4, 3], cap: "butt" };
const HIGHLIGHT_PEN = { colour: HIGHLIGHT, width: 5, opacity: 0.7 };
const LIT_PEN = { colour: LIT, width: 9, opacity: 0.55 };
const PREVIEW_PEN = { colour: LINE, width: 2, dash: [7, 4], opacity: 0.8 };
const CENTRELINE = [9, 3, 2, 3];
/** The width of a panel, in CSS pixels, at which pens have their own width. */
const PLAIN_WIDTH = 620;

export class Panel {
  constructor(canvas) {
    this.canvas = canvas;
    this.context = canvas.getContext("2d");
    this.device = null;
    this.view = { left: -1, bottom: -1, right: 1, top: 1 };
    /** What the pointer adds: a curve that is lit, a stroke to come, points that it joins, a cross. */
    this.pointed = {};
    this.frame = 0;
    // Drawn at once, so that the old picture is never seen stretched.
    new ResizeObserver(() => this.draw()).observe(canvas);
  }

  show(device, view) {
    this.device = device;
    this.view = view;
    this.redraw();
  }

  point(pointed) {
    this.pointed = pointed;
    this.redraw();
  }

  /** Draws once before the next frame, however often it is asked. */
  redraw() {
    this.frame ||= requestAnimationFrame(() => {
      this.frame = 0;
      this.draw();
    });
  }

  get width() {
    return this.canvas.clientWidth;
  }

  get height() {
    return this.canvas.clientHeight;
  }

  /** CSS pixels for a unit of the plane. */
  get scale() {
    const { left, bottom, right, top } = this.view;
    return Math.min(this.width / (right - left), this.height / (top - bottom));
  }

  /** Where a position of the plane lies on the canvas, in CSS pixels. */
  toCanvas([x, y]) {
    const { left, bottom, right, top } = this.view;
    return [
      this.width / 2 + (x - (left + right) / 2) * this.scale,
      this.height / 2 - (y - (bottom + top) / 2) * this.scale,
    ];
  }

  toPlane([x, y]) {
    const { left, bottom, right, top } = this.view;
    return [
      (left + right) / 2 + (x - this.width / 2) / this.scale,
      (bottom + top) / 2 - (y - this.height / 2) / this.scale,
    ];
  }

  draw() {
    const density = window.devicePixelRatio || 1;
    const [width, height] = [this.width, this.height].map((side) => Math.round(side * density));
    if (!width || !height) {
      return;
    }
    if (this.canvas.width !== width || this.canvas.height !== height) {
      [this.canvas.width, this.canvas.height] = [width, height];
    }
    this.context.setTransform(density, 0, 0, density, 0, 0);
    this.context.fillStyle = PAPER;
    this.context.fillRect(0, 0, this.width, this.height);
    if (this.device) {
      this.drawLit(this.pointed);
      this.drawDevice(this.device);
      this.drawPointed(this.pointed);
    }
  }

  drawDevice({ curves, points, away, highlight }) {
    away.forEach((stroke) => this.stroke(stroke, AWAY_PEN));
    curves.forEach((curve) => this.stroke(curve.stroke, penOf(curve)));
    for (const point of points) {
      this.dot([point.x, point.y], point.fixed ? 3.4 : 1.7, LINE);
    }
    if (highlight) {
      highlight.curves.forEach((stroke) => this.stroke(stroke, HIGHLIGHT_PEN));
      highlight.points.forEach((position) => this.dot(position, 5, HIGHLIGHT));
    }
  }

  drawLit({ lit }) {
    if (lit) {
      this.stroke(lit.stroke, LIT_PEN);
    }
  }

  drawPointed({ preview, joined = [], cross }) {
    if (preview) {
      this.stroke(preview, PREVIEW_PEN);
    }
    joined.forEach((position) => this.ring(position));
    if (cross) {
      this.cross(cross);
    }
  }

  get thickness() {
    return Math.min(1.5, Math.max(1, this.width / PLAIN_WIDTH));
  }

  stroke(stroke, { colour, width, dash = [], cap = "round", opacity = 1 }) {
    const { context, thickness } = this;
    context.strokeStyle = colour;
    context.globalAlpha = opacity;
    context.lineWidth = width * thickness;
    context.lineCap = cap;
    context.lineJoin = "round";
    context.setLineDash(dash.map((length) => length * thickness));
    context.beginPath();
    this.trace(stroke);
    context.stroke();
    context.setLineDash([]);
    context.globalAlpha = 1;
  }

  /** Angles go the other way on a canvas, whose y goes down. */
  trace(stroke) {
    if (stroke.path) {
      stroke.path.forEach((position) => this.context.lineTo(...this.toCanvas(position)));
      return;
    }
    const [x, y, radius, start, sweep] = stroke.arc || [...stroke.circle, 0, TURN];
    const centre = this.toCanvas([x, y]);
    this.context.arc(...centre, radius * this.scale, -start, -start - sweep, true);
  }

  dot(position, radius, colour) {
    this.context.fillStyle = colour;
    this.context.beginPath();
    this.context.arc(...this.toCanvas(position), radius * this.thickness, 0, TURN);
    this.context.fill();
  }

  /** About a standing point that an end joins. */
  ring(position) {
    this.context.strokeStyle = ROUND;
    this.context.lineWidth = 2;
    this.context.beginPath();
    this.context.arc(...this.toCanvas(position), 8, 0, TURN);
    this.context.stroke();
  }

  cross(position) {
    const [x, y] = this.toCanvas(position);
    this.context.strokeStyle = LINE;
    this.context.lineWidth = 1.5;
    this.context.beginPath();
    for (const [dx, dy] of [[1, 0], [-1, 0], [0, 1], [0, -1]]) {
      this.context.moveTo(x + 4 * dx, y + 4 * dy);
      this.context.lineTo(x + 14 * dx, y + 14 * dy);
    }
    this.context.stroke();
  }
}

function penOf({ kind, construction, centerline }) {
  const pen = construction ? { colour: CONSTRUCTION, width: 1 } : PENS[kind] || PENS.line;
  return centerline ? { ...pen, dash: CENTRELINE } : pen;
}
