// What a server counts (--metrics), read once a second: each count as a line over the last ten minutes.
// Another path than /metrics is said behind the page's address: ?metrics=/counts

const PATH = new URLSearchParams(location.search).get("metrics") ?? "/metrics";
const PAUSE = 1000;
const PATIENCE = 3000;
const SPAN = 600_000;
// The server looks once a second too, so what comes between two reads may be none or twice as much.
const SMOOTH = 5000;

const CHARTS = [
  {
    title: "Clients",
    value: (it) => it.counts.socketio_clients,
    note: (counts) => `${shortly(counts.socketio_sockets)} sockets`,
  },
  {
    title: "Messages a second",
    value: (it) => rate(it, "socketio_messages_taken_total"),
    note: (counts) => `${shortly(counts.socketio_messages_waiting)} wait`,
  },
  {
    title: "Dropped a second",
    value: (it) => rate(it, "socketio_messages_dropped_total"),
    note: (counts) => `${shortly(counts.socketio_messages_dropped_total)} since the start`,
    kind: "bad",
  },
  {
    title: "Rooms",
    value: (it) => it.counts.socketio_rooms,
    note: (counts) => `${shortly(counts.socketio_sockets)} of them sockets' own`,
  },
];

// What was read, the oldest first: the moment, the counts, and in which run of the server. What was read in one run
// makes one line.
let readings = [];
let run = 0;
let lostAt = "";
let pointed = null; // how long ago is what the pointer is at

const numbers = (digits) => new Intl.NumberFormat("en", { maximumFractionDigits: digits });
const compact = new Intl.NumberFormat("en", { notation: "compact", maximumSignificantDigits: 3 });
const shortly = (number) => (number < 10_000 ? numbers(0) : compact).format(number);
const wholly = (number) => numbers(number < 10 ? 1 : 0).format(number);

// The numbers of each name, added up: a loop and a reason each have one of their own.
function parse(text) {
  const counts = {};
  for (const [, name, number] of text.matchAll(/^(\w+)(?:\{.*\})? (\d+)$/gm)) {
    counts[name] = (counts[name] ?? 0) + Number(number);
  }
  return counts;
}

function rate(reading, name) {
  const run = readings.filter((it) => it.run === reading.run && it.at < reading.at);
  const before = run.find((it) => it.at >= reading.at - SMOOTH) ?? run.at(-1);
  return before && (1000 * (reading.counts[name] - before.counts[name])) / (reading.at - before.at);
}

function tell(state, text) {
  document.getElementById("state").dataset.state = state;
  document.getElementById("state").textContent = text;
}

// The counts now, or nothing where there are none, and why is told.
async function read() {
  try {
    const answer = await fetch(PATH, { cache: "no-store", signal: AbortSignal.timeout(PATIENCE) });
    const counts = answer.ok ? parse(await answer.text()) : {};
    if ("socketio_clients" in counts) return counts;
    tell("lost", `no counts at ${PATH}: the server needs --metrics ${PATH}`);
  } catch {
    lostAt ||= new Date().toLocaleTimeString();
    tell("lost", `the server is gone since ${lostAt}`);
  }
  return null;
}

function take(counts) {
  const at = performance.now();
  const last = readings.at(-1);
  readings = readings.filter((it) => at - it.at < SPAN + SMOOTH);
  // A server that was started anew counts anew.
  const isAnew = last && !(counts?.socketio_commands_total >= last.counts.socketio_commands_total);
  if (isAnew && last.run === run) run += 1;
  if (!counts) return;
  lostAt = "";
  tell("open", "up");
  const reading = { at, counts, run };
  readings.push(reading);
  reading.values = CHARTS.map((chart) => chart.value(reading));
}

// The height of an axis, which with its half is easy to read: 2, 4, 6, 8, 10, 20, 40 ..
function heightOver(most) {
  const power = 10 ** Math.floor(Math.log10(Math.max(most, 1)));
  return [2, 4, 6, 8, 10].find((it) => it * power >= most) * power;
}

// What the charts show large: the last reading, or that at which the pointer is.
function shown(now) {
  if (pointed === null) return readings.at(-1)?.run === run ? readings.at(-1) : undefined;
  const distance = (it) => Math.abs(now - pointed - it.at);
  return readings.reduce((best, it) => (best && distance(best) <= distance(it) ? best : it), undefined);
}

function ago(reading, now) {
  const seconds = Math.round((now - reading.at) / 1000);
  return seconds < 60 ? `${seconds} s ago` : `${Math.floor(seconds / 60)} min ${seconds % 60} s ago`;
}

function drawLine(pen, points, bottom) {
  const line = new Path2D();
  points.forEach(([x, y]) => line.lineTo(x, y));
  // A line of one point is a dot.
  line.lineTo(points.at(-1)[0] + 0.01, points.at(-1)[1]);
  pen.stroke(line);
  line.lineTo(points.at(-1)[0], bottom);
  line.lineTo(points[0][0], bottom);
  pen.globalAlpha = 0.12;
  pen.fill(line);
  pen.globalAlpha = 1;
}

// The lines of an axis, at whole pixels: three heights, and each minute of five.
function drawAxes(pen, width, height, colour) {
  pen.strokeStyle = colour;
  pen.lineWidth = 1;
  pen.beginPath();
  for (const y of [1.5, Math.round(height / 2) + 0.5, height - 1.5]) {
    pen.moveTo(0, y);
    pen.lineTo(width, y);
  }
  pen.stroke();
}

function draw(canvas, values, top, now) {
  const style = getComputedStyle(canvas);
  const [width, height] = [canvas.clientWidth, canvas.clientHeight];
  canvas.width = width * devicePixelRatio;
  canvas.height = height * devicePixelRatio;
  const pen = canvas.getContext("2d");
  pen.scale(devicePixelRatio, devicePixelRatio);
  drawAxes(pen, width, height, style.getPropertyValue("--edge"));
  const across = (at) => width * (1 - (now - at) / SPAN) - 2;
  const down = (value) => height - 1.5 - (value / top) * (height - 3);
  pen.strokeStyle = pen.fillStyle = style.getPropertyValue("--line");
  pen.lineWidth = 2;
  pen.lineJoin = pen.lineCap = "round";
  for (const points of Map.groupBy(values, ([reading]) => reading.run).values()) {
    drawLine(pen, points.map(([reading, value]) => [across(reading.at), down(value)]), height - 1.5);
  }
  if (pointed === null) return;
  pen.lineWidth = 1;
  pen.strokeStyle = style.getPropertyValue("--dim");
  pen.strokeRect(across(now - pointed), 0, 0, height);
}

function show(chart, index) {
  const now = performance.now();
  const reading = shown(now);
  const values = readings.map((it) => [it, it.values[index]]).filter(([, value]) => value !== undefined);
  const top = heightOver(Math.max(...values.map(([, value]) => value)));
  const value = reading?.values[index];
  const [output, note, ...heights] = chart.section.querySelectorAll("output, small, .heights span");
  output.textContent = value === undefined ? "–" : wholly(value);
  note.textContent = !reading ? "" : pointed === null ? chart.note(reading.counts) : ago(reading, now);
  heights[0].textContent = shortly(top);
  heights[1].textContent = shortly(top / 2);
  draw(chart.section.querySelector("canvas"), values, top, now);
}

function showAll() {
  CHARTS.forEach(show);
}

function build(chart) {
  chart.section = document.getElementById("chart").content.cloneNode(true).firstElementChild;
  chart.section.querySelector("h2").textContent = chart.title;
  if (chart.kind) chart.section.classList.add(chart.kind);
  const canvas = chart.section.querySelector("canvas");
  canvas.setAttribute("aria-label", `${chart.title}, over the last ten minutes`);
  canvas.onpointermove = (event) => {
    pointed = SPAN * (1 - event.offsetX / canvas.clientWidth);
    showAll();
  };
  canvas.onpointerleave = () => {
    pointed = null;
    showAll();
  };
  document.getElementById("charts").append(chart.section);
}

async function watch() {
  for (;;) {
    const due = performance.now() + PAUSE;
    take(await read());
    showAll();
    await new Promise((kept) => setTimeout(kept, due - performance.now()));
  }
}

CHARTS.forEach(build);
new ResizeObserver(showAll).observe(document.getElementById("charts"));
matchMedia("(prefers-color-scheme: dark)").onchange = showAll;
tell("waiting", "reading …");
watch();
