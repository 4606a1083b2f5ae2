// The tools at the desk, by mouse, pen, finger and keyboard.

import { arcThrough, distance, farthestFromChord, nearestCurve, nearestPoint } from "./geometry.js";

/** CSS pixels within which a member or a point is meant. */
const FINGER = 22;
const TIP = 10;
/** CSS pixels that a touch may stray, and that a drawn member must have. */
const STRAY = { finger: 18, tip: 8 };
const SHORTEST = 14;
const KEY_STEP = 8;
const ARROWS = { ArrowLeft: [-1, 0], ArrowRight: [1, 0], ArrowUp: [0, -1], ArrowDown: [0, 1] };
const KEYBOARD = "keyboard";

export class Pointer {
  /** `acts` has `edit(operation, position, within)`, `draw(kind, positions, within)` and `hint(text)`. */
  constructor(panel, acts) {
    this.panel = panel;
    this.acts = acts;
    this.tool = "trim";
    /** The pointer that is down: its id, whether it is a finger, and where it went on the canvas. */
    this.drag = null;
    /** Where the mouse, and the keyboard's cross, are on the canvas. */
    this.hovered = null;
    this.cross = null;
    this.listen(panel.canvas);
  }

  listen(canvas) {
    const on = (name, act) => canvas.addEventListener(name, (event) => act.call(this, event));
    on("pointerdown", this.down);
    on("pointermove", this.move);
    on("pointerup", this.up);
    on("pointercancel", this.cancel);
    on("lostpointercapture", this.cancel);
    on("pointerleave", this.unhover);
    on("keydown", this.key);
    on("blur", this.leave);
    on("contextmenu", (event) => event.preventDefault());
  }

  choose(tool) {
    this.tool = tool;
    this.giveUp();
  }

  get draws() {
    return ["line", "arc", "circle"].includes(this.tool);
  }

  down(event) {
    // A second finger, or another button, does nothing.
    if (this.drag || !event.isPrimary || event.button !== 0) {
      return;
    }
    this.panel.canvas.setPointerCapture(event.pointerId);
    this.cross = null;
    const finger = event.pointerType === "touch";
    this.drag = { id: event.pointerId, finger, path: [this.at(event)] };
    this.showDrag();
  }

  move(event) {
    if (!this.drag) {
      return this.hover(event);
    }
    if (event.pointerId === this.drag.id) {
      const steps = event.getCoalescedEvents?.() ?? [];
      this.drag.path.push(...steps.map((step) => this.at(step)), this.at(event));
      this.showDrag();
    }
  }

  up(event) {
    if (event.pointerId === this.drag?.id) {
      this.drag.path.push(this.at(event));
      this.finish();
    }
  }

  cancel(event) {
    if (event.pointerId === this.drag?.id) {
      this.giveUp();
    }
  }

  leave() {
    this.cross = null;
    this.giveUp();
  }

  giveUp() {
    this.drag = null;
    this.refresh();
  }

  /** Lights up what is under the mouse or the cross in the drawing as it is now. */
  refresh() {
    const place = this.cross ?? this.hovered;
    if (this.drag) {
      return;
    }
    if (!place) {
      return this.panel.point({});
    }
    const position = this.panel.toPlane(place);
    const cross = this.cross && position;
    this.panel.point({ ...this.under(position, this.reach(false)), cross });
  }

  /** Where an event is on the canvas, in CSS pixels. */
  at(event) {
    const { left, top } = this.panel.canvas.getBoundingClientRect();
    return [event.clientX - left, event.clientY - top];
  }

  /** How far in the plane something may lie that is meant. */
  reach(finger) {
    return (finger ? FINGER : TIP) / this.panel.scale;
  }

  hover(event) {
    if (event.pointerType !== "touch") {
      this.hovered = this.at(event);
      this.cross = null;
      this.refresh();
    }
  }

  unhover() {
    this.hovered = null;
    this.refresh();
  }

  /** What is lit at a position: the member that would be edited, or the point that would be joined. */
  under(position, within) {
    const { curves, points } = this.panel.device ?? { curves: [], points: [] };
    if (!this.draws) {
      return { lit: nearestCurve(curves, position, within) };
    }
    const point = nearestPoint(points, position, within);
    return { joined: point ? [[point.x, point.y]] : [] };
  }

  showDrag() {
    const { drag, panel } = this;
    const cross = this.cross && panel.toPlane(this.cross);
    if (!this.draws) {
      const position = panel.toPlane(drag.path[0]);
      panel.point({ ...this.under(position, this.reach(drag.finger)), cross });
      return;
    }
    const { positions, joined } = this.drawn();
    panel.point({ preview: preview(this.tool, positions), joined, cross });
  }

  /** The ends of what is being drawn, at standing points where they are near, and for an arc the
   * position passed through. */
  drawn() {
    const { path, finger } = this.drag;
    const planePath = path.map((place) => this.panel.toPlane(place));
    const join = (position) => {
      const point = nearestPoint(this.panel.device.points, position, this.reach(finger));
      return point ? [point.x, point.y] : position;
    };
    const ends = [planePath[0], planePath.at(-1)];
    const positions = ends.map(join);
    const joined = positions.filter((position, i) => position !== ends[i]);
    if (this.tool === "arc") {
      positions.push(farthestFromChord(planePath, ...positions));
    }
    return { positions, joined };
  }

  finish() {
    const { path, finger } = this.drag;
    if (this.draws) {
      this.finishDrawing();
    } else if (distance(path[0], path.at(-1)) > STRAY[finger ? "finger" : "tip"]) {
      this.acts.hint("Touch the member, and let go at the same place.");
    } else {
      this.acts.edit(this.tool, this.panel.toPlane(path[0]), this.reach(finger));
    }
    this.giveUp();
  }

  finishDrawing() {
    const { positions } = this.drawn();
    const [from, to] = positions;
    if (distance(from, to) * this.panel.scale < SHORTEST) {
      this.acts.hint(`That was too short. ${SHORT[this.tool]}`);
    } else if (this.tool === "arc" && !arcThrough(...positions)) {
      this.acts.hint("That was straight. Drag along a bow from one end of the arc to the other.");
    } else {
      this.acts.draw(this.tool, positions, this.reach(this.drag.finger));
    }
  }

  key(event) {
    const arrow = ARROWS[event.key];
    if (arrow) {
      this.step(arrow, event.shiftKey ? 1 : KEY_STEP);
    } else if (event.key === "Enter" || event.key === " ") {
      this.press();
    } else if (event.key === "Escape") {
      this.giveUp();
    } else {
      return;
    }
    event.preventDefault();
  }

  step([dx, dy], by) {
    const { panel } = this;
    const [x, y] = this.cross ?? [panel.width / 2, panel.height / 2];
    const inside = (value, most) => Math.min(most, Math.max(0, value));
    this.cross = [inside(x + dx * by, panel.width), inside(y + dy * by, panel.height)];
    if (this.drag?.id === KEYBOARD) {
      this.drag.path.push(this.cross);
      this.showDrag();
    } else {
      this.refresh();
    }
  }

  /** A touch at the cross; a member is begun by one and ended by the next. */
  press() {
    if (!this.cross) {
      return this.step([0, 0], 0);
    }
    if (this.drag && this.drag.id !== KEYBOARD) {
      return;
    }
    this.drag ??= { id: KEYBOARD, finger: false, path: [] };
    this.drag.path.push(this.cross);
    if (this.draws && this.drag.path.length === 1) {
      this.showDrag();
    } else {
      this.finish();
    }
  }
}

const SHORT = {
  line: "Drag from one end of the line to the other.",
  arc: "Drag along the arc, from one end to the other.",
  circle: "Drag from the centre to the rim.",
};

function preview(tool, [from, to, through]) {
  if (tool === "circle") {
    return { circle: [...from, distance(from, to)] };
  }
  return (tool === "arc" && arcThrough(from, to, through)) || { path: [from, to] };
}
