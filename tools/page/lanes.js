// ---- Drawing: the whole run, the axis, a lane a host.

const GUTTER = 74, MARGIN = 8, MAP = 30, AXIS = 20;
const canvas = at("canvas"), pen = canvas.getContext("2d");
const SMALL = "10px system-ui, 'DejaVu Sans', sans-serif";
// What the last redraw laid out: its size, the lanes, and where they stand.
const stage = { width: 1, height: 1, hosts: [], top: 0, lane: 20, segments: [], redraws: 0, milliseconds: 0 };
let isAsked = false, shade = null;

/** Asks for a redraw in the next frame: one, however often it is asked for. */
function askDraw() {
  if (isAsked || !T) return;
  isAsked = true;
  requestAnimationFrame(() => {
    isAsked = false;
    draw();
  });
}

const plotWidth = () => Math.max(1, stage.width - GUTTER - MARGIN);
const xOf = moment => GUTTER + ((moment - view.from) / (view.to - view.from)) * plotWidth();
const momentOf = x => view.from + ((x - GUTTER) / plotWidth()) * (view.to - view.from);
const perTick = () => plotWidth() / (view.to - view.from);

/** The middle of a host's lane, or null if the host isn't shown. */
function laneOf(host) {
  const place = stage.hosts.indexOf(host);
  return place < 0 ? null : stage.top + (place + 0.5) * stage.lane;
}

const ink = name => getComputedStyle(document.documentElement).getPropertyValue(name).trim();

function draw() {
  const start = performance.now();
  fitCanvas();
  at("tip").hidden = true;
  const colours = Object.fromEntries(["page", "ink", "soft", "rule", "lane"].map(name => [name, ink(`--${name}`)]));
  pen.fillStyle = colours.page;
  pen.fillRect(0, 0, stage.width, stage.height);
  layOut();
  drawMap(colours);
  drawAxis(colours);
  drawLanes(colours);
  drawPackets(colours);
  drawMarks(colours);
  if (view.call) drawCall(stage.top + stage.lane * stage.hosts.length + 14, colours);
  drawRuler(colours);
  stage.redraws++;
  stage.milliseconds = performance.now() - start;
  showState();
}

function fitCanvas() {
  const ratio = devicePixelRatio || 1, width = canvas.clientWidth, height = canvas.clientHeight;
  if (canvas.width !== Math.round(width * ratio) || canvas.height !== Math.round(height * ratio)) {
    canvas.width = Math.round(width * ratio);
    canvas.height = Math.round(height * ratio);
  }
  Object.assign(stage, { width, height });
  pen.setTransform(ratio, 0, 0, ratio, 0, 0);
}

function layOut() {
  const below = view.call ? Math.min(320, stage.height * 0.5) : 0;
  stage.hosts = hostsShown();
  stage.top = MAP + AXIS;
  stage.lane = Math.min(view.call ? 110 : 150, (stage.height - stage.top - below - 4) / stage.hosts.length);
}

/** The whole run as a curve of bytes, with the part in view. */
function drawMap(colours) {
  const width = Math.floor(plotWidth());
  if (T.map?.length !== width) {
    const edges = edgesOf(width, 0, T.end);
    T.map = Float64Array.from({ length: width }, (_, x) => sumAt(T.all, edges, x + 1) - sumAt(T.all, edges, x));
    T.mapMost = T.map.reduce((a, b) => Math.max(a, b), 1);
  }
  pen.fillStyle = "#8a929e";
  pen.beginPath();
  pen.moveTo(GUTTER, MAP - 2);
  T.map.forEach((bytes, x) => {
    const y = MAP - 2 - (bytes / T.mapMost) * (MAP - 6);
    pen.lineTo(GUTTER + x, y);
    pen.lineTo(GUTTER + x + 1, y);
  });
  pen.lineTo(GUTTER + width, MAP - 2);
  pen.fill();
  const placeOfMap = moment => GUTTER + (Math.max(0, Math.min(T.end, moment)) / T.end) * width;
  const left = placeOfMap(view.from), right = placeOfMap(view.to);
  pen.fillStyle = "rgba(230, 159, 0, 0.22)";
  pen.fillRect(left, 1, Math.max(2, right - left), MAP - 2);
  pen.strokeStyle = colourOf("signs", "idle");
  pen.lineWidth = 1;
  pen.strokeRect(left + 0.5, 1.5, Math.max(2, right - left) - 1, MAP - 3);
  text("whole run", GUTTER - 6, 18, colours.soft, "right");
}

function text(words, x, y, colour, align = "left", font = SMALL) {
  pen.font = font;
  pen.textAlign = align;
  pen.fillStyle = colour;
  pen.fillText(words, x, y);
}

/** Of each pixel's edge its slot, and which part of that tick is over: all sums are read there. */
function edgesOf(width, from, to) {
  const slot = new Uint32Array(width + 1), part = new Float64Array(width + 1);
  for (let x = 0, k = slotAt(from); x <= width; x++) {
    const moment = from + ((to - from) * x) / width;
    while (k + 1 < T.slots.length && T.slots[k + 1] <= moment + 1e-9) k++;
    slot[x] = k;
    part[x] = Math.max(0, Math.min(1, moment - T.slots[k]));
  }
  return { slot, part, ticks: (to - from) / width };
}

function sumAt(sums, edges, x) {
  const slot = edges.slot[x];
  return sums[slot] + (sums[slot + 1] - sums[slot]) * edges.part[x];
}

/** A step of 1, 2 or 5 times a power of ten that leaves this many pixels between two lines. */
function stepOf(perUnit, room) {
  const raw = room / perUnit, ten = 10 ** Math.floor(Math.log10(raw));
  return [1, 2, 5, 10].find(k => k * ten >= raw * 0.999) * ten;
}

function rule(x, colours) {
  pen.strokeStyle = colours.rule;
  pen.lineWidth = 1;
  pen.beginPath();
  pen.moveTo(Math.round(x) + 0.5, stage.top - 4);
  pen.lineTo(Math.round(x) + 0.5, stage.height);
  pen.stroke();
}

/** Ticks; closer than a tick it counts lines as `#15`, as a place within a tick is an order and no time. */
function drawAxis(colours) {
  const step = stepOf(perTick(), 80), ticks = Math.max(1, step);
  for (let k = Math.ceil(Math.max(0, view.from) / ticks); k * ticks <= Math.min(view.to, T.end); k++) {
    const x = xOf(k * ticks);
    rule(x, colours);
    if (x > GUTTER - 2 && x < stage.width - 12) text(String(k * ticks), x, stage.top - 7, colours.soft, "center");
  }
  if (step < 1) drawLineNumbers(colours);
  text(step < 1 ? "tick #line" : "tick", GUTTER - (step < 1 ? 10 : 34), stage.top - 7, colours.soft, "right");
}

function drawLineNumbers(colours) {
  const { moments } = T, count = T.lines.length;
  let last = GUTTER;
  for (let line = firstWhere(count, i => moments[i] >= view.from); line < count && moments[line] <= view.to; line++) {
    const x = xOf(moments[line]), isTick = Math.abs(moments[line] - Math.round(moments[line])) * perTick() < 30;
    if (x < last + 70 || isTick) continue;
    last = x;
    rule(x, colours);
    text(placeOf(line).split(" ")[1], x, stage.top - 7, colours.soft, "center");
  }
}

/** A lane a host: how dark it is says how many bytes arrived in a tick; a strip says where its link was idle. */
function drawLanes(colours) {
  const width = Math.max(1, Math.floor(plotWidth()));
  const edges = edgesOf(width, momentOf(GUTTER), momentOf(GUTTER + width));
  const { hosts, lane } = stage, gap = lane > 10 ? 2 : 0;
  stage.segments = segmentsInView();
  paintShades(edges, width, stage.segments.length ? 0.25 : 1);
  pen.imageSmoothingEnabled = false;
  pen.drawImage(shade, 0, 0, width, hosts.length, GUTTER, stage.top, width, lane * hosts.length);
  const strip = Math.max(2, Math.min(6, lane / 5));
  hosts.forEach((host, i) => {
    const bottom = stage.top + (i + 1) * lane;
    pen.fillStyle = colours.page;
    if (gap) pen.fillRect(GUTTER, bottom - gap, width, gap);
    if (!view.hidden.has("idle")) drawStrips(T.idleSums[host], edges, bottom - gap - strip, strip);
    nameLane(host, bottom - lane / 2, colours);
  });
}

/** A row of pixels for each host; slate, as hues are for packets. */
function paintShades(edges, width, strength) {
  const { hosts } = stage, [red, green, blue] = isDark() ? [190, 202, 220] : [62, 74, 94];
  const page = isDark() ? [24, 28, 34] : [250, 251, 252];
  if (shade?.width !== width || shade.height !== hosts.length) shade = new OffscreenCanvas(width, hosts.length);
  const brush = shade.getContext("2d"), image = brush.createImageData(width, hosts.length), { data } = image;
  hosts.forEach((host, row) => {
    for (let x = 0, before = sumAt(T.sums[host], edges, 0), to = 4 * row * width; x < width; x++, to += 4) {
      const after = sumAt(T.sums[host], edges, x + 1), share = Math.min(1, (after - before) / edges.ticks / T.most);
      const part = share > 0 ? (0.12 + 0.82 * Math.sqrt(share)) * strength : 0;
      before = after;
      data[to] = page[0] + (red - page[0]) * part;
      data[to + 1] = page[1] + (green - page[1]) * part;
      data[to + 2] = page[2] + (blue - page[2]) * part;
      data[to + 3] = 255;
    }
  });
  brush.putImageData(image, 0, 0);
}

function drawStrips(sums, edges, top, height) {
  pen.fillStyle = colourOf("signs", "idle");
  const width = edges.slot.length - 1;
  for (let x = 0, start = -1; x <= width; x++) {
    const until = x < width ? edges.slot[x + 1] + (edges.part[x + 1] > 0 ? 1 : 0) : 0;
    const isIdle = x < width && sums[until] > sums[edges.slot[x]] && edges.part[x] < 1;
    if (isIdle && start < 0) start = x;
    if (isIdle || start < 0) continue;
    pen.fillRect(GUTTER + start, top, x - start, height);
    start = -1;
  }
}

function nameLane(host, y, colours) {
  const size = Math.min(12, Math.max(8, stage.lane - 3)), isRoomy = stage.lane > 11 && stage.hosts.length < 20;
  const font = SMALL.replace("10px", `${size}px`);
  text((isRoomy ? "host " : "") + host, GUTTER - 6, y + 4, colours.ink, "right", font);
  if (isElsewhere(T, host) && stage.lane > 24) text("elsewhere", GUTTER - 6, y + 15, colours.soft, "right");
}

/** A text in a box of its own, so that it is read on any shade. */
function label(words, x, y, colours) {
  pen.font = SMALL;
  const width = pen.measureText(words).width;
  pen.fillStyle = colours.page;
  pen.fillRect(x - width / 2 - 4, y - 10, width + 8, 14);
  text(words, x, y, colours.ink, "center");
}

/** Whole ticks: within one there is an order and no time. */
function ticksBetween(a, b) {
  return Math.abs(Math.floor(b + 1e-6) - Math.floor(a + 1e-6));
}

function drawRuler(colours) {
  if (view.ruler) {
    const [from, to] = view.ruler, left = xOf(Math.min(from, to)), right = xOf(Math.max(from, to));
    pen.fillStyle = "rgba(204, 121, 167, 0.18)";
    pen.fillRect(left, stage.top, right - left, stage.height);
    label(counted(ticksBetween(from, to), "tick"), (left + right) / 2, stage.top + 12, colours);
  }
  if (view.mark === null) return;
  const x = xOf(T.moments[view.mark]);
  pen.strokeStyle = "#cc79a7";
  pen.lineWidth = 2;
  pen.beginPath();
  pen.moveTo(x, MAP);
  pen.lineTo(x, stage.height);
  pen.stroke();
}

/** What the foot says of what is shown. */
function showState() {
  const digits = view.to - view.from < 4 ? 2 : view.to - view.from < 40 ? 1 : 0;
  const moment = it => Math.max(0, Math.min(T.end, it)).toFixed(digits), arrows = stage.segments.length;
  at("state").textContent = [
    `ticks ${moment(view.from)} to ${moment(view.to)} of 0 to ${commas(T.lastTick)}`,
    view.call && `call ${nameOf(view.call)}`,
    arrows ? `${commas(arrows)} arrows` : `shade: bytes received a tick, darkest ${commas(T.most)}; zoom in for arrows`,
    view.ruler && `ruler: ${counted(ticksBetween(...view.ruler), "tick")}`,
    T.last || "no last line: the trace may be cut off",
  ].filter(Boolean).join(" · ");
}
