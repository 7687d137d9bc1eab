// DRAWINGS: the connections over time, how many are open at each server, and timeouts against connections kept.

const MARGIN = { left: 44, right: 14 }, TOP = 46, HEIGHTS = [2, 3, 5, 7, 10, 14];
const view = {
  begin: data.begin, end: Math.max(data.end, data.begin + 1), rows: connections, height: 7,
  cursor: null, hover: null, isDue: false, isPrinted: false,
};
const drawing = byId("drawing"), canvas = drawing.querySelector("canvas"), spacer = drawing.querySelector(".spacer");

// A step of 1, 2 or 5 times a power of ten, for about so many ticks.
function niceStep(span, ticks) {
  const rough = span / ticks, power = 10 ** Math.floor(Math.log10(rough));
  return power * [1, 2, 5, 10].find((it) => it * power >= rough);
}

const DAY = 86400 * SECOND;
const CLOCK_STEPS = [1, 2, 5, 10, 15, 30, 60, 120, 300, 600, 900, 1800, 3600, 7200, 14400, 21600, 43200, 86400].map((it) => it * SECOND);

function clockStep(span, ticks) {
  const rough = span / ticks;
  if (rough < SECOND) return Math.max(1, niceStep(span, ticks));
  return CLOCK_STEPS.find((it) => it >= rough) ?? Math.ceil(rough / DAY) * DAY;
}

// The ticks of the time axis, at whole steps of the clock.
function timeTicks(begin, end, number) {
  const step = clockStep(end - begin, number);
  const digits = step < SECOND ? Math.min(9, Math.ceil(-Math.log10(step / SECOND) - 1e-9)) : 0;
  const wide = BigInt(Math.round(step)), moment = zero + BigInt(Math.round(begin));
  const first = Number(((moment + wide - 1n) / wide) * wide - zero), found = [];
  for (let at = first; at <= end && found.length < 100; at += step) found.push([at, clock(at, digits)]);
  return found;
}

const toX = (time, width) => MARGIN.left + ((time - view.begin) / (view.end - view.begin)) * (width - MARGIN.left - MARGIN.right);
const toTime = (x, width) => view.begin + ((x - MARGIN.left) / (width - MARGIN.left - MARGIN.right)) * (view.end - view.begin);

// The changes in view with their places, and the lane of the words of each; null where there is no room.
function changeMarks(width, widthOf) {
  const ends = [-1e9, -1e9], found = [];
  for (const it of data.changes) {
    const x = toX(it.at, width);
    if (x < MARGIN.left - 1 || x > width - MARGIN.right + 1) continue;
    const text = it.words.replace("server ", ""), half = widthOf(text) / 2 + 5;
    const middle = Math.min(Math.max(x, MARGIN.left + half - 5), width - half);
    const lane = ends.findIndex((end) => end <= middle - half);
    if (lane >= 0) ends[lane] = middle + half;
    found.push({ x, middle, text, lane: lane < 0 ? null : lane });
  }
  return found;
}

// CONNECTIONS

function colours() {
  const style = getComputedStyle(document.documentElement);
  const named = (name) => style.getPropertyValue(`--${name}`).trim();
  const others = ["none", "card", "ink", "quiet", "line", "bad", "mark"].map((it) => [it, named(it)]);
  return { servers: Array.from({ length: 12 }, (_, at) => named(`s${at}`)), ...Object.fromEntries(others) };
}

function drawAxis(pen, colour, width, height) {
  pen.fillStyle = colour.card;
  pen.fillRect(0, 0, width, TOP - 4);
  pen.textAlign = "center";
  pen.strokeStyle = colour.line;
  for (const [time, text] of timeTicks(view.begin, view.end, Math.max(2, width / 110))) {
    const x = Math.round(toX(time, width)) + 0.5;
    pen.fillStyle = colour.quiet;
    pen.fillText(text, Math.min(Math.max(x, 30), width - 30), 12);
    pen.beginPath();
    pen.moveTo(x, TOP - 4);
    pen.lineTo(x, height);
    pen.stroke();
  }
}

function drawChanges(pen, colour, width, height) {
  pen.strokeStyle = pen.fillStyle = colour.ink;
  pen.setLineDash([4, 3]);
  for (const { x, middle, text, lane } of changeMarks(width, (it) => pen.measureText(it).width)) {
    if (lane !== null) pen.fillText(text, middle, 26 + lane * 13);
    pen.beginPath();
    pen.moveTo(Math.round(x) + 0.5, lane === 0 ? 29 : TOP - 4);
    pen.lineTo(Math.round(x) + 0.5, height);
    pen.stroke();
  }
  pen.setLineDash([]);
}

function drawMark(pen, colour, it, x, y) {
  const isBroken = it.kind === BROKEN || it.kind === BROKEN_ANYWAY;
  pen.beginPath();
  pen.arc(x, y, Math.max(2, Math.min(4, view.height * 0.5)), 0, 7);
  pen.fillStyle = isBroken ? colour.bad : colour.card;
  pen.strokeStyle = isBroken ? colour.card : colour.bad;
  pen.lineWidth = isBroken ? 1 : 1.5;
  pen.fill();
  if (!isBroken || view.height >= 5) pen.stroke();
  pen.lineWidth = 1;
}

function drawLabel(pen, colour, it, x, right, y, width) {
  const text = it.client, wide = pen.measureText(text).width;
  pen.fillStyle = colour.quiet;
  pen.textAlign = "left";
  if (right + 8 + wide < width) pen.fillText(text, right + 8, y + 4);
  else if (x - 8 - wide > MARGIN.left) pen.fillText(text, x - 8 - wide, y + 4);
}

function drawConnection(pen, colour, it, y, width) {
  const least = MARGIN.left, most = width - MARGIN.right, clamp = (x) => Math.min(Math.max(x, least), most);
  const thick = Math.max(1.5, Math.min(8, view.height * 0.62));
  const x = toX(it.opened, width), end = Math.max(toX(it.last, width), x + 2.5);
  if (it === view.cursor || it === table.chosen || it === view.hover) {
    pen.fillStyle = colour.mark;
    pen.fillRect(0, y - view.height / 2, width, Math.max(view.height, 3));
  }
  if (end < least || x > most) return;
  pen.fillStyle = it.server === null ? colour.none : colour.servers[(it.server - 1) % 12];
  pen.fillRect(clamp(x), y - thick / 2, Math.max(2, clamp(end) - clamp(x)), thick);
  if (it.wait != null) {
    pen.strokeStyle = colour.card;
    pen.lineWidth = Math.max(1, thick * 0.5);
    pen.setLineDash([3, 3]);
    pen.beginPath();
    pen.moveTo(clamp(toX(it.forward - it.wait, width)), y);
    pen.lineTo(clamp(toX(it.forward, width)), y);
    pen.stroke();
    pen.setLineDash([]);
    pen.lineWidth = 1;
  }
  const mark = it.at === undefined ? null : toX(it.at, width);
  if (mark !== null && mark >= least && mark <= most) drawMark(pen, colour, it, mark, y);
  if (view.height >= 14) drawLabel(pen, colour, it, x, end, y, width);
}

function drawRows(pen, colour, width, height, from) {
  const first = Math.max(0, Math.floor(from / view.height));
  for (let at = first; at < view.rows.length; at++) {
    const y = TOP + at * view.height - from + view.height / 2;
    if (y > height + view.height) break;
    if (y >= TOP - view.height / 2) drawConnection(pen, colour, view.rows[at], y, width);
  }
}

function draw() {
  view.isDue = false;
  const width = drawnWidth(), from = drawing.scrollTop;
  const whole = TOP + view.rows.length * view.height + 8;
  const height = view.isPrinted ? Math.min(whole, 700) : drawing.clientHeight;
  const scale = view.isPrinted ? 2 : devicePixelRatio || 1;
  spacer.style.height = `${Math.max(whole, view.isPrinted ? 0 : height)}px`;
  canvas.width = width * scale;
  canvas.height = height * scale;
  canvas.style.height = `${height}px`;
  const pen = canvas.getContext("2d"), colour = colours();
  pen.scale(scale, scale);
  pen.font = "11px system-ui, 'DejaVu Sans', sans-serif";
  pen.fillStyle = colour.card;
  pen.fillRect(0, 0, width, height);
  drawAxis(pen, colour, width, height);
  drawRows(pen, colour, width, height, from);
  pen.textAlign = "center";
  drawChanges(pen, colour, width, height);
  drawHeld();
  byId("range").textContent = `${clock(view.begin)} to ${clock(view.end)} UTC`;
}

// How wide drawings are, on paper or on the screen.
const drawnWidth = () => (view.isPrinted ? 780 : drawing.clientWidth);

function drawSoon() {
  if (view.isDue) return;
  view.isDue = true;
  requestAnimationFrame(draw);
}

// OPEN CONNECTIONS BY SERVER

// The part of the moments that is in view.
function heldPart() {
  const { begin, step, servers } = data.held, number = servers[0].counts.length;
  const first = Math.max(0, Math.floor((view.begin - begin) / step)), last = Math.min(number - 1, Math.ceil((view.end - begin) / step));
  return { first, last, timeOf: (at) => begin + at * step };
}

function gridLines(picture, width, top, bottom, most) {
  const step = Math.max(1, niceStep(most, 4));
  for (let value = 0; value <= most; value += step) {
    const y = bottom - (value / most) * (bottom - top);
    picture.append(shape("line", { class: "grid", x1: MARGIN.left, x2: width - MARGIN.right, y1: y, y2: y }));
    picture.append(shape("text", { x: MARGIN.left - 6, y: y + 4, "text-anchor": "end" }, count(value)));
  }
}

function drawHeld() {
  const width = drawnWidth(), top = 24, bottom = 160;
  const picture = shape("svg", { viewBox: `0 0 ${width} 182`, role: "img" });
  const { first, last, timeOf } = heldPart(), sums = new Float64Array(last - first + 1), layers = [];
  for (const { server, counts } of data.held.servers) {
    const below = sums.slice();
    for (let at = first; at <= last; at++) sums[at - first] += counts[at];
    layers.push([server, below, sums.slice()]);
  }
  const most = Math.max(1, sums.reduce((a, b) => Math.max(a, b), 0));
  const toY = (value) => (bottom - (value / most) * (bottom - top)).toFixed(1);
  const clamped = (at) => Math.min(Math.max(toX(timeOf(at), width), MARGIN.left), width - MARGIN.right).toFixed(1);
  picture.setAttribute("aria-label", `Open connections by server over time, at most ${count(most)} at once`);
  for (const [server, below, above] of layers) {
    const places = Array.from(above, (value, at) => `${clamped(first + at)},${toY(value)}`);
    const back = Array.from(below, (value, at) => `${clamped(first + at)},${toY(value)}`).reverse();
    picture.append(shape("polygon", { class: server === null ? "none" : colourClass(server), points: [...places, ...back].join(" ") }));
  }
  gridLines(picture, width, top, bottom, most);
  for (const [time, text] of timeTicks(view.begin, view.end, Math.max(2, width / 110))) {
    picture.append(shape("text", { x: Math.min(Math.max(toX(time, width), 30), width - 30), y: 176, "text-anchor": "middle" }, text));
  }
  for (const { x, middle, text, lane } of changeMarks(width, (it) => it.length * 6)) {
    picture.append(shape("line", { class: "change", x1: x, x2: x, y1: lane === 0 ? 14 : top, y2: bottom }));
    if (lane === 0) picture.append(shape("text", { class: "strong", x: middle, y: 10, "text-anchor": "middle" }, text));
  }
  picture.style.width = view.isPrinted ? "" : `${width}px`;
  byId("held").replaceChildren(picture);
}

function legend() {
  const item = (server, text) => element("li", {}, dot(server), text);
  const servers = data.held.servers.map(({ server }) => item(server, server === null ? "other servers" : `server ${server}`));
  const mark = (attributes, text) => {
    const picture = shape("svg", { width: 26, height: 10, "aria-hidden": "true" });
    picture.append(...attributes.map(([name, values]) => shape(name, values)));
    return element("li", {}, picture, text);
  };
  const line = ["rect", { x: 0, y: 2, width: 26, height: 6, class: "s11" }];
  byId("legend").replaceChildren(
    ...servers,
    item(null, "accepted by none"),
    mark([line, ["path", { d: "M2 5H24", class: "dashes" }]], "forwarded to the old server"),
    mark([["circle", { cx: 13, cy: 5, r: 4, class: "bad" }]], "broken"),
    mark([["circle", { cx: 13, cy: 5, r: 3.5, class: "hollow" }]], "refused"),
    mark([["path", { d: "M13 0V10", class: "change" }]], "change"),
  );
}

// MOVING ABOUT

function show(begin, end) {
  const whole = data.end - data.begin, least = Math.max(1000, whole / 1e5);
  const span = Math.min(Math.max(end - begin, least), Math.max(whole, least));
  view.begin = Math.max(data.begin, Math.min(begin, data.end - span));
  view.end = view.begin + span;
  drawSoon();
}

function zoom(factor, middle = (view.begin + view.end) / 2) {
  show(middle - (middle - view.begin) * factor, middle + (view.end - middle) * factor);
}

const pan = (part) => show(view.begin + part * (view.end - view.begin), view.end + part * (view.end - view.begin));

function higher(by) {
  const at = HEIGHTS.indexOf(view.height) + by;
  if (at < 0 || at >= HEIGHTS.length) return;
  const first = drawing.scrollTop / view.height;
  view.height = HEIGHTS[at];
  draw();
  drawing.scrollTop = first * view.height;
}

function chooseRows() {
  view.rows = byId("only").checked ? [...table.rows].sort((a, b) => a.number - b.number) : connections;
  const left = data.left.reduce((sum, number) => sum + number, 0);
  byId("drawn").textContent = `${plural(view.rows.length, "connection")}: first those that broke or were refused, then those that an old ` +
    `server kept, then the others.${left ? ` ${count(left)} more aren't drawn.` : ""}`;
  view.height = [...HEIGHTS].reverse().find((it) => it * view.rows.length <= 490 && it < 14) ?? 3;
  drawing.scrollTop = 0;
  drawSoon();
}

function rowAt(event) {
  const box = canvas.getBoundingClientRect(), y = event.clientY - box.top;
  return y < TOP ? null : (view.rows[Math.floor((y - TOP + drawing.scrollTop) / view.height)] ?? null);
}

function hover(event) {
  const it = rowAt(event), tip = byId("tip");
  if (it !== view.hover) { view.hover = it; drawSoon(); }
  tip.hidden = it === null;
  if (it === null) return;
  tip.textContent = `${it.client}, server ${it.server ?? "none"}\n${clock(it.opened)} to ${clock(it.last)} UTC\n${outcome(it)}`;
  tip.style.left = `${Math.min(event.clientX + 14, innerWidth - 390)}px`;
  tip.style.top = `${Math.min(event.clientY + 16, innerHeight - 90)}px`;
}

function leave() {
  view.hover = null;
  byId("tip").hidden = true;
  drawSoon();
}

function setUpPointer() {
  let grip = null;
  drawing.addEventListener("pointerdown", (event) => {
    if (event.target === canvas) grip = { x: event.clientX, begin: view.begin, end: view.end, isMoved: false, id: event.pointerId };
  });
  drawing.addEventListener("pointermove", (event) => {
    if (!grip) { hover(event); return; }
    const moved = event.clientX - grip.x;
    if (!grip.isMoved && Math.abs(moved) < 4) return;
    if (!grip.isMoved) drawing.setPointerCapture(grip.id);
    grip.isMoved = true;
    drawing.classList.add("dragged");
    const shift = (moved / (drawing.clientWidth - MARGIN.left - MARGIN.right)) * (grip.end - grip.begin);
    show(grip.begin - shift, grip.end - shift);
  });
  const drop = (event) => {
    if (grip && !grip.isMoved && event.type === "pointerup" && rowAt(event)) tell(rowAt(event));
    grip = null;
    drawing.classList.remove("dragged");
  };
  drawing.addEventListener("pointerup", drop);
  drawing.addEventListener("pointercancel", drop);
  drawing.addEventListener("pointerleave", leave);
  drawing.addEventListener("scroll", () => { leave(); drawSoon(); }, { passive: true });
  drawing.addEventListener("wheel", (event) => {
    if (!event.ctrlKey && !event.metaKey) return;
    event.preventDefault();
    zoom(Math.exp(event.deltaY / 300), toTime(event.clientX - canvas.getBoundingClientRect().left, drawing.clientWidth));
  }, { passive: false });
}

function moveCursor(by) {
  const at = view.cursor ? view.rows.indexOf(view.cursor) + by : 0;
  view.cursor = view.rows[Math.min(Math.max(at, 0), view.rows.length - 1)] ?? null;
  const y = view.rows.indexOf(view.cursor) * view.height, room = drawing.clientHeight - TOP - view.height;
  drawing.scrollTop = Math.min(Math.max(drawing.scrollTop, y - room), y);
  drawSoon();
}

const KEYS = {
  ArrowLeft: () => pan(-0.15), ArrowRight: () => pan(0.15), "+": () => zoom(0.67), "=": () => zoom(0.67), "-": () => zoom(1.5),
  0: () => show(data.begin, data.end), ArrowUp: () => moveCursor(-1), ArrowDown: () => moveCursor(1),
  Enter: () => view.cursor && tell(view.cursor),
};

function setUpTime() {
  byId("time").hidden = false;
  legend();
  setUpPointer();
  drawing.addEventListener("keydown", (event) => {
    if (event.ctrlKey || event.altKey || event.metaKey || !KEYS[event.key]) return;
    event.preventDefault();
    KEYS[event.key]();
  });
  const buttons = {
    in: () => zoom(0.5), out: () => zoom(2), whole: () => show(data.begin, data.end),
    lower: () => higher(-1), higher: () => higher(1),
  };
  for (const [id, call] of Object.entries(buttons)) byId(id).addEventListener("click", call);
  byId("only").addEventListener("change", chooseRows);
  table.whenShown.push(() => (byId("only").checked ? chooseRows() : drawSoon()));
  new ResizeObserver(drawSoon).observe(drawing);
  matchMedia("(prefers-color-scheme: dark)").addEventListener("change", drawSoon);
  addEventListener("beforeprint", () => printed(true));
  addEventListener("afterprint", () => printed(false));
  chooseRows();
}

function printed(isPrinted) {
  view.isPrinted = isPrinted;
  if (isPrinted) document.documentElement.dataset.theme = "light";
  else delete document.documentElement.dataset.theme;
  table.size = isPrinted ? MOST_PRINTED : PAGE;
  showTable();
  draw();
}

// TIMEOUTS

const kept = data.curve.points.length ? data.curve.points[data.curve.points.length - 1][1] : 0;

// How many connections a timeout of so many seconds keeps.
function keptBy(timeout) {
  const known = data.curve.replayed.find(([it]) => it === timeout);
  return known ? known[1] : data.curve.points.reduce((found, [wait, number]) => (wait <= timeout * SECOND ? number : found), 0);
}

function drawCurve(timeout, most) {
  const width = 720, top = 12, bottom = 240, picture = shape("svg", { viewBox: `0 0 ${width} 284`, role: "img" });
  const x = (at) => MARGIN.left + (at / most) * (width - MARGIN.left - MARGIN.right);
  const y = (number) => bottom - (number / kept) * (bottom - top);
  picture.setAttribute("aria-label", `Of ${count(kept)} connections that old servers kept, how many each timeout keeps`);
  gridLines(picture, width, top, bottom, kept);
  const steps = data.curve.points.map(([wait, number]) => `H${x(wait / SECOND).toFixed(2)}V${y(number).toFixed(2)}`).join("");
  const line = `M${MARGIN.left} ${bottom}${steps}H${x(most)}`;
  picture.append(shape("path", { class: "under", d: `${line}V${bottom}Z` }), shape("path", { class: "kept", d: line }));
  const step = niceStep(most, 8);
  const words = (at, y, text) => picture.append(shape("text", { x: at, y, "text-anchor": "middle" }, text));
  for (let at = 0; at <= most; at += step) words(x(at), bottom + 18, `${Number(at.toFixed(6))} s`);
  words((MARGIN.left + width - MARGIN.right) / 2, bottom + 38, "timeout");
  picture.append(shape("line", { class: "at", x1: x(timeout), x2: x(timeout), y1: top, y2: bottom }));
  for (const [at, number] of data.curve.replayed) {
    const mark = shape("circle", { class: "replayed", cx: x(at), cy: y(number), r: 5 });
    mark.append(shape("title", {}, `${at} s: ${count(number)}, replayed`));
    picture.append(mark);
  }
  byId("curve").replaceChildren(picture);
}

function timeoutFor(part) {
  const wanted = Math.ceil(kept * part - 1e-9);
  return Math.ceil(data.curve.points.find(([, number]) => number >= wanted)[0] / SECOND);
}

function setUpTimeouts() {
  byId("timeouts").hidden = false;
  if (!kept) {
    byId("curve-says").textContent = "No connection was kept by packets that were forwarded to an old server.";
    for (const hidden of document.querySelectorAll(".columns.curve")) hidden.hidden = true;
    return;
  }
  const most = Math.max(...data.curve.replayed.map(([it]) => it));
  byId("curve-says").textContent =
    `With a timeout of ${most} s old servers kept ${plural(kept, "connection")}, whose packets were forwarded. ` +
    "The curve says how many of these a shorter timeout keeps. It goes by the last forwarded packet of each, as beamer-connections " +
    "prints it (last-forward .. after W): a timeout below W breaks the connection. " +
    "A packet after the connection's own RST, or a client's port that is used again, may make W differ. The circles were replayed.";
  const say = () => {
    const timeout = Number(byId("timeout").value), number = keptBy(timeout);
    const by = data.curve.replayed.some(([it]) => it === timeout) ? " (replayed)" : "";
    byId("kept").textContent = `${timeout} s keeps ${count(number)} of ${count(kept)}, and breaks ${count(kept - number)}${by}`;
    drawCurve(timeout, most);
  };
  Object.assign(byId("timeout"), { max: most, value: data.timeout_s });
  byId("timeout").addEventListener("input", say);
  byId("steps").tBodies[0].replaceChildren(...[0.5, 0.75, 0.9, 0.95, 0.99, 1].map((part) => {
    const cells = [part === 1 ? "all" : `${part * 100} %`, count(Math.ceil(kept * part - 1e-9)), `${count(timeoutFor(part))}`];
    return element("tr", {}, ...cells.map((text) => element("td", { textContent: text })));
  }));
  say();
}

setUpTable();
setUpTime();
setUpTimeouts();
requestAnimationFrame(() => {
  performance.mark("ready");
  document.documentElement.dataset.ready = performance.getEntriesByName("ready")[0].startTime.toFixed(0);
});
