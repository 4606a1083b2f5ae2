// Messages on their way from the desk to the wall: a dot for each. The server tells how many are on the
// air, sent and lost; which dot is which message is not told and not shown.

import { TURN } from "./geometry.js";

const INK = "#22303c";
const AWAY = "#c2352b";
const TRACK = "#c9c4b4";
/** Milliseconds from end to end, and those in which a lost one falls. */
const CROSSING = 900;
const FALL = 800;
/** A dot waits here, as a share of the way, for its message to be delivered. */
const WAITING = 0.82;
/** Where there is to be no motion, the dots stand on this share of the way. */
const STILL = 0.36;
const MOST = 40;

export class Air {
  constructor(canvas) {
    this.canvas = canvas;
    this.context = canvas.getContext("2d");
    this.still = window.matchMedia("(prefers-reduced-motion: reduce)");
    this.dots = [];
    this.last = null;
    this.frame = 0;
    this.time = 0;
    new ResizeObserver(() => this.draw()).observe(canvas);
  }

  show(radio) {
    const since = (name) => Math.max(0, radio[name] - this.last[name]);
    if (this.last) {
      this.send(Math.min(MOST, since("sent")));
      this.lose(Math.min(MOST, since("lost")));
    }
    const flying = this.flying();
    this.send(Math.min(MOST, radio.on_the_air) - flying.length);
    const done = Math.max(0, flying.length - radio.on_the_air);
    flying.slice(0, done).forEach((dot) => (dot.fate = "arrives"));
    this.last = radio;
    this.animate();
  }

  flying() {
    return this.dots.filter((dot) => dot.fate === "flies");
  }

  send(count) {
    for (let i = 0; i < count; i++) {
      // Dots that leave together are drawn behind each other.
      this.dots.push({ way: -0.07 * i, lane: (this.dots.length % 3) - 1, fate: "flies", fallen: 0 });
    }
  }

  lose(count) {
    const flying = this.flying();
    flying.slice(Math.max(0, flying.length - count)).forEach((dot) => (dot.fate = "falls"));
  }

  animate() {
    this.frame ||= requestAnimationFrame((now) => {
      this.frame = 0;
      const step = Math.min(100, now - (this.time || now));
      this.time = now;
      this.dots.forEach((dot) => move(dot, step));
      this.dots = this.dots.filter((dot) => dot.way < 1 && dot.fallen < 1);
      this.draw();
      if (this.dots.length && !this.still.matches) {
        this.animate();
      } else {
        this.time = 0;
      }
    });
  }

  draw() {
    const { canvas, context } = this;
    const [width, height] = [canvas.clientWidth, canvas.clientHeight];
    const density = window.devicePixelRatio || 1;
    [canvas.width, canvas.height] = [width, height].map((side) => Math.round(side * density));
    context.setTransform(density, 0, 0, density, 0, 0);
    this.drawTrack(width, height / 2);
    if (this.still.matches) {
      this.drawStill(width, height / 2);
    } else {
      this.dots.forEach((dot) => this.drawDot(dot, width, height));
    }
  }

  drawTrack(width, y) {
    this.context.strokeStyle = TRACK;
    this.context.lineWidth = 1.5;
    this.context.setLineDash([1.5, 6]);
    this.context.lineCap = "round";
    this.context.beginPath();
    this.context.moveTo(2, y);
    this.context.lineTo(width - 2, y);
    this.context.stroke();
  }

  /** Without motion: as many dots as there are messages on the air, left of the word in the middle. */
  drawStill(width, y) {
    const count = Math.min(MOST, this.last ? this.last.on_the_air : 0);
    for (let i = 0; i < count; i++) {
      this.disc(((i + 1) / (count + 1)) * STILL * width, y, INK, 1);
    }
    this.dots = [];
  }

  drawDot({ way, lane, fate, fallen }, width, height) {
    if (way < 0) {
      return;
    }
    const y = height / 2 + lane * height * 0.16 * Math.sin(Math.PI * way);
    const lost = fate === "falls";
    this.disc(6 + way * (width - 12), y + fallen ** 2 * height * 0.45, lost ? AWAY : INK, 1 - fallen);
  }

  disc(x, y, colour, opacity) {
    this.context.globalAlpha = opacity;
    this.context.fillStyle = colour;
    this.context.beginPath();
    this.context.arc(x, y, 4.5, 0, TURN);
    this.context.fill();
    this.context.globalAlpha = 1;
  }
}

function move(dot, step) {
  const most = dot.fate === "arrives" ? 1 : dot.fate === "falls" ? 0.5 : WAITING;
  if (dot.way < most) {
    dot.way = Math.min(most, dot.way + step / CROSSING);
  } else if (dot.fate === "falls") {
    dot.fallen = Math.min(1, dot.fallen + step / FALL);
  }
}
