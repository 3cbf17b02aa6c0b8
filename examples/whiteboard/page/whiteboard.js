// Lines that are drawn together. A board has 1200 by 900 points, however large it is shown.

import { connect, make, part } from "./page.js";

const WIDTH = 1200;
const HEIGHT = 900;
const COLOURS = ["ink", "red", "orange", "green", "blue", "violet"];
const WIDTHS = { thin: 3, medium: 7, thick: 16 };
// A line is [colour, width, x, y, x, y ..], with so many numbers of points at most, and is sent so often.
const MOST = 30;
const PAUSE = 40;

const canvas = part("canvas");
const pen = canvas.getContext("2d");
const strokes = new Map();
let socket = null;
let isReady = false;
let lines = [];

function draw([colour, width, ...points]) {
  pen.strokeStyle = getComputedStyle(document.documentElement).getPropertyValue(`--${COLOURS[colour] ?? "ink"}`);
  pen.lineWidth = Object.values(WIDTHS)[width] ?? WIDTHS.thin;
  pen.lineCap = pen.lineJoin = "round";
  pen.beginPath();
  pen.moveTo(points[0], points[1]);
  // A line of one point is a dot.
  for (let at = points.length > 2 ? 2 : 0; at < points.length; at += 2) pen.lineTo(points[at], points[at + 1]);
  pen.stroke();
}

function add(line) {
  lines.push(line);
  part("hint").hidden = true;
  draw(line);
}

function drawAll() {
  const scale = (canvas.clientWidth * devicePixelRatio) / WIDTH;
  canvas.width = WIDTH * scale;
  canvas.height = HEIGHT * scale;
  pen.setTransform(scale, 0, 0, scale, 0, 0);
  part("hint").hidden = lines.length > 0;
  lines.forEach(draw);
}

function ready(is) {
  isReady = is;
  strokes.clear();
  canvas.classList.toggle("away", !is);
  part("clear").disabled = !is;
}

const heard = {
  // The app greets whom it doesn't know: at each connection, and after it was started anew.
  hello: () => join(),
  line: add,
  clear() {
    lines = [];
    drawAll();
  },
  here(count) {
    part("count").textContent = count === 1 ? "only you" : `${count} people`;
  },
};

const told = {
  // What others draw meanwhile comes with the answer to `join`, so until then nothing is drawn here.
  connected: () => ready(false),
};

async function join() {
  [lines] = await socket.emit("join", part("board").value);
  part("title").textContent = part("board").value;
  part("enter").hidden = true;
  part("drawing").hidden = false;
  drawAll();
  ready(true);
}

function pointOf(event) {
  const box = canvas.getBoundingClientRect();
  const part = (from, size, most) => Math.round(Math.min(Math.max(from / size, 0), 1) * most);
  return [part(event.clientX - box.left, box.width, WIDTH), part(event.clientY - box.top, box.height, HEIGHT)];
}

// Sends what was drawn since the last time. Each line begins where the one before it ends.
function send(stroke) {
  clearTimeout(stroke.timer);
  stroke.timer = null;
  for (let at = 0; at === 0 || at < stroke.points.length - 2; at += MOST - 2) {
    const line = [...stroke.pen, ...stroke.points.slice(at, at + MOST)];
    lines.push(line);
    socket.emitVolatile("line", line);
  }
  stroke.points = stroke.points.slice(-2);
}

canvas.onpointerdown = (event) => {
  if (!isReady || event.button !== 0) return;
  canvas.setPointerCapture(event.pointerId);
  const { colour, width } = Object.fromEntries(new FormData(part("tools")));
  const stroke = { pen: [Number(colour), Number(width)], points: pointOf(event), timer: null };
  strokes.set(event.pointerId, stroke);
  part("hint").hidden = true;
  draw([...stroke.pen, ...stroke.points]);
  send(stroke);
};

canvas.onpointermove = (event) => {
  const stroke = strokes.get(event.pointerId);
  if (!stroke) return;
  const parts = event.getCoalescedEvents?.() ?? [];
  const points = (parts.length > 0 ? parts : [event]).flatMap(pointOf);
  draw([...stroke.pen, ...stroke.points.slice(-2), ...points]);
  stroke.points.push(...points);
  stroke.timer ??= setTimeout(() => send(stroke), PAUSE);
};

canvas.onpointerup = canvas.onpointercancel = (event) => {
  const stroke = strokes.get(event.pointerId);
  if (!stroke) return;
  strokes.delete(event.pointerId);
  if (stroke.timer !== null) send(stroke);
};

// A choice of one: a radio button, with a name for those who don't see its sign.
function choice(group, name, at, chosen, sign) {
  const label = make("label");
  const input = Object.assign(make("input"), { type: "radio", name: group, value: at, checked: at === chosen });
  input.setAttribute("aria-label", name);
  label.title = name;
  label.append(input, sign);
  return label;
}

part("colours").append(...COLOURS.map((name, at) => {
  const sign = make("i");
  sign.style.background = `var(--${name})`;
  return choice("colour", name, at, 0, sign);
}));

part("widths").append(...Object.entries(WIDTHS).map(([name, width], at) => {
  const sign = make("i");
  sign.style.width = sign.style.height = `${width + 2}px`;
  return choice("width", name, at, 1, sign);
}));

part("clear").onclick = () => socket.emit("clear");

part("enter").onsubmit = (event) => {
  event.preventDefault();
  socket ??= connect(heard, told);
};

new ResizeObserver(() => drawAll()).observe(canvas);
matchMedia("(prefers-color-scheme: dark)").onchange = drawAll;
