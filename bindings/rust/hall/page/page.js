// The page: what the server tells is shown, and what is done here is sent.

import { Air } from "./air.js";
import { Panel } from "./panel.js";
import { Pointer } from "./pointer.js";
import { Server } from "./server.js";

const ANEW = "Desk and wall then start anew from the new drawing.";
const TOOLS = {
  trim: "Trim: touch the part of a member that is to go; it is cut away up to what crosses it.",
  split: "Split: touch a member where it is to be parted; a circle is parted where others cross it.",
  extend: "Extend: touch a line next to its end; it grows to the next member on its course.",
  line: `Line: drag from one end to the other. ${ANEW}`,
  arc: `Arc: drag along it, from one end to the other. ${ANEW}`,
  circle: `Circle: drag from the centre to the rim. ${ANEW}`,
};
const RADIO_COUNTS = ["on_the_air", "sent", "lost", "repeated", "overtaken", "missed"];
const WALL_COUNTS = ["applied", "old", "ahead", "foreign", "started_again"];
const SLIDERS = ["loss", "repeats", "reordering"];
/** Milliseconds between two settings of the radio that are sent. */
const SETTINGS_APART = 150;

const part = (id) => document.getElementById(id);
const toolButtons = [...document.querySelectorAll("[data-tool]")];
const desk = new Panel(part("desk"));
const wall = new Panel(part("wall"));
const air = new Air(part("air"));
const server = new Server({ state: showState, gone: showGone, refused: hint });
const pointer = new Pointer(desk, { edit, draw, hint });
let isOpen = true;
let serial = null;
let isSetting = false;

/** Puts a text where another stands, and leaves the same alone, so that it is not read out again. */
function write(element, text) {
  if (element.textContent !== text) {
    element.textContent = text;
  }
}

/** A drawing, and what is in it for those who do not see it. */
function showDrawing(panel, name, device, view) {
  panel.show(device, view);
  const counts = `${device.curves.length} members, ${device.away.length} pieces cut away`;
  const label = `The ${name}'s drawing: ${counts}`;
  if (panel.canvas.getAttribute("aria-label") !== label) {
    panel.canvas.setAttribute("aria-label", label);
  }
}

function showState(state) {
  showDrawing(desk, "desk", state.desk, state.view);
  showDrawing(wall, "wall", state.wall, state.view);
  pointer.refresh();
  air.show(state.radio);
  write(part("desk-count"), String(state.desk.count));
  write(part("wall-count"), String(state.wall.count));
  showAgreement(state);
  showDoor(state.wall.door === "open");
  RADIO_COUNTS.forEach((name) => write(part(name), String(state.radio[name])));
  WALL_COUNTS.forEach((name) => write(part(name), String(state.wall_tally[name])));
  showSettings(state.radio);
  showBridges(state.bridges);
  const { image, message, interface: calls, library } = state.formats;
  const formats = `image ${image}, message ${message}, interface ${calls}, library ${library}`;
  write(part("formats"), formats);
  if (state.notice && state.notice.serial !== serial) {
    showNotice(state.notice);
  }
  serial = state.notice ? state.notice.serial : null;
}

function showAgreement({ alike, behind, wall: { mark_differs } }) {
  const words = alike ? "alike" : mark_differs ? "not started anew" : `behind by ${behind}`;
  write(part("agreement"), words);
  part("agreement").dataset.alike = String(alike);
}

function showDoor(open) {
  isOpen = open;
  part("wall").classList.toggle("dimmed", !open);
  part("door-note").hidden = open;
  write(part("door"), open ? "Close the door" : "Open the door");
}

/** The server's settings, unless newer ones are on their way to it. */
function showSettings(radio) {
  if (!isSetting) {
    SLIDERS.forEach((name) => (part(name).value = radio[name]));
    showPercents();
  }
}

function showPercents() {
  SLIDERS.forEach((name) => write(part(`${name}-value`), `${part(name).value} %`));
}

function showBridges(bridges) {
  const select = part("bridge");
  const names = bridges.map((bridge) => bridge.name).join("\n");
  if (select.dataset.names !== names) {
    select.replaceChildren(...bridges.map(({ name, title }) => new Option(title, name)));
    select.dataset.names = names;
  }
}

function showNotice({ kind, title, text, number, relation }) {
  part("notice").dataset.kind = kind;
  part("notice-number").hidden = number === null;
  write(part("notice-number"), number === null ? "" : String(number));
  write(part("notice-title"), title);
  write(part("notice-text"), text);
  write(part("notice-relation"), relation === null ? "" : `The relation: ${relation}.`);
}

/** A sentence of the page's own, until the server's next notice. */
function hint(text) {
  showNotice({ kind: "told", title: "", text, number: null, relation: null });
}

function showGone(isGone) {
  part("gone").hidden = !isGone;
  document.body.classList.toggle("ended", isGone);
}

function edit(operation, [x, y], within) {
  server.post("/edit", { operation, x, y, within });
}

function draw(kind, positions, within) {
  const fields = { kind };
  positions.forEach(([x, y], i) => Object.assign(fields, { [`x${i + 1}`]: x, [`y${i + 1}`]: y }));
  server.post("/draw", { ...fields, within });
}

function choose(tool) {
  pointer.choose(tool);
  toolButtons.forEach((button) => button.setAttribute("aria-pressed", button.dataset.tool === tool));
  write(part("tool-hint"), TOOLS[tool]);
}

/** Sends the radio's settings as long as they change, and the last ones always. */
async function sendSettings() {
  showPercents();
  if (isSetting) {
    return;
  }
  isSetting = true;
  let sent = "";
  for (let due = settings(); due !== sent; due = settings()) {
    sent = due;
    await server.post("/radio", Object.fromEntries(new URLSearchParams(due)));
    await new Promise((resolve) => setTimeout(resolve, SETTINGS_APART));
  }
  isSetting = false;
}

function settings() {
  return new URLSearchParams(SLIDERS.map((name) => [name, part(name).value])).toString();
}

/** Draws anew where a screen has more or fewer pixels than the one before, so that lines stay sharp. */
function watchDensity() {
  const same = window.matchMedia(`(resolution: ${window.devicePixelRatio}dppx)`);
  const changed = () => {
    [desk, wall, air].forEach((canvas) => canvas.draw());
    watchDensity();
  };
  same.addEventListener("change", changed, { once: true });
}

function listen() {
  toolButtons.forEach((button) => button.addEventListener("click", () => choose(button.dataset.tool)));
  SLIDERS.forEach((name) => part(name).addEventListener("input", sendSettings));
  part("door").addEventListener("click", () => server.post("/door", { open: isOpen ? "no" : "yes" }));
  part("send-again").addEventListener("click", () => server.post("/send-again"));
  part("new").addEventListener("submit", (event) => {
    event.preventDefault();
    server.post("/new", { bridge: part("bridge").value });
  });
  document.addEventListener("keydown", (event) => {
    const tool = Object.keys(TOOLS)[Number(event.key) - 1];
    const isTyped = event.ctrlKey || event.altKey || event.metaKey || event.target.matches("select");
    if (tool && !isTyped) {
      choose(tool);
    }
  });
}

listen();
watchDensity();
choose("trim");
server.poll();
