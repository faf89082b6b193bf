// ---- Drawing: packets as arrows, and what else happened at hosts.

const STUB = 22; // pixels of an arrow to or from a host that isn't shown
const DENSE = 600; // more arrows are drawn thinner, without heads and dashes

/** The packets whose arrows are drawn: those of the chosen call, or all if they can be told apart. */
function packetsInView() {
  const isSeen = packet => packet.last >= view.from && packet.start <= view.to && !view.hidden.has(packet.look);
  if (view.call) return view.call.packets.filter(isSeen);
  const shown = new Set(stage.hosts), found = [], most = 0.3 * stage.width;
  const count = T.packets.length;
  for (let i = firstWhere(count, k => T.reach[k] >= view.from); i < count && T.packets[i].start <= view.to; i++) {
    const packet = T.packets[i];
    if (!isSeen(packet) || !(shown.has(packet.from) || shown.has(packet.to))) continue;
    found.push(packet);
    if (found.length > most) return [];
  }
  return found;
}

/** An arrow: from where to where, how it ends, and the number of a host that isn't shown. */
function segmentsInView() {
  return packetsInView().flatMap(packet => {
    const from = laneOf(packet.from), to = laneOf(packet.to);
    if (packet.fate !== "arrived") return from === null ? [] : [unfinished(packet, from, to)];
    return packet.ends.map(moment => finished(packet, moment, from, to));
  });
}

function finished(packet, moment, from, to) {
  const x1 = xOf(packet.start), x2 = xOf(moment), line = { packet, x1, y1: from, x2, y2: to, tip: "head" };
  if (from === null) return { ...line, x1: Math.max(x1, x2 - 10), y1: to - STUB, host: packet.from, isFrom: true };
  if (to === null) return { ...line, x2: Math.min(x2, x1 + 10), y2: from + STUB, host: packet.to };
  return line;
}

/** Half an arrow: a cross if it was lost, a ring if it was under way at the end, a bar if its receiver is elsewhere. */
function unfinished(packet, from, to) {
  const x1 = xOf(packet.start), down = Math.sign((to ?? from + 1) - from) * Math.min(STUB, stage.lane * 0.4);
  const tip = { lost: "cross", "under way": "ring", elsewhere: "bar" }[packet.fate];
  const host = to === null || tip === "bar" ? packet.to : undefined;
  return { packet, x1, y1: from, x2: x1 + 14, y2: from + down, tip, host };
}

function drawPackets(colours) {
  const { segments } = stage, isDense = segments.length > DENSE;
  pen.save();
  pen.beginPath();
  pen.rect(GUTTER, stage.top, stage.width - GUTTER, stage.lane * stage.hosts.length + 12);
  pen.clip();
  for (const look of Object.keys(LOOKS.packets)) {
    drawKind(look, segments.filter(it => it.packet.look === look), isDense);
  }
  const places = new Labels();
  if (segments.length < 120) nameStubs(segments, places, colours);
  if (segments.length < 60) nameArrows(segments, places);
  drawChosen(colours);
  if (!view.hidden.has("lost")) drawLosses();
  pen.restore();
}

function drawKind(look, segments, isDense) {
  if (!segments.length) return;
  pen.strokeStyle = pen.fillStyle = colourOf("packets", look);
  pen.lineWidth = isDense ? 0.8 : 1.4;
  pen.setLineDash(isDense ? [] : LOOKS.packets[look].dash);
  pen.beginPath();
  for (const it of segments) {
    pen.moveTo(it.x1, it.y1);
    pen.lineTo(it.x2, it.y2);
  }
  pen.stroke();
  pen.setLineDash([]);
  if (isDense) return;
  pen.beginPath();
  for (const it of segments) addTip(it);
  pen.stroke();
}

function addTip({ x1, y1, x2, y2, tip }) {
  const angle = Math.atan2(y2 - y1, x2 - x1);
  if (tip === "head") {
    for (const turn of [-0.4, 0.4]) {
      pen.moveTo(x2, y2);
      pen.lineTo(x2 - 7 * Math.cos(angle + turn), y2 - 7 * Math.sin(angle + turn));
    }
  } else if (tip === "ring") {
    pen.moveTo(x2 + 3, y2);
    pen.arc(x2, y2, 3, 0, 2 * Math.PI);
  } else if (tip === "bar") {
    pen.moveTo(x2 - 4, y2);
    pen.lineTo(x2 + 4, y2);
  }
}

/** The number of a host that isn't shown, or that is elsewhere, at its stub. */
function nameStubs(segments, places, colours) {
  for (const it of segments) {
    if (it.host === undefined) continue;
    const isDown = it.y2 > it.y1, y = it.isFrom ? it.y1 - 3 : it.y2 + (isDown ? 9 : -3);
    places.put((it.isFrom ? "from " : "to ") + it.host, it.isFrom ? it.x1 : it.x2, y, colours.soft, "center");
  }
}

/** What an arrow carries, beside its middle. */
function nameArrows(segments, places) {
  for (const { packet, x1, y1, x2, y2 } of segments) {
    const range = packet.asks || (packet.kind === "DATA" ? [packet.offset, packet.offset + packet.size] : null);
    const bytes = range ? range.map(commas).join("..") : packet.offset ? commas(packet.offset) : "";
    const said = [packet.kind === "DATA" ? "" : packet.kind, bytes].filter(Boolean).join(" ");
    const x = (x1 + x2) / 2, y = (y1 + y2) / 2, colour = colourOf("packets", packet.look);
    if (!places.put(said, x + 6, y + 3, colour)) places.put(said, x - 6, y + 3, colour, "right");
  }
}

/** Texts that are drawn only if there is room for them. */
class Labels {
  constructor() {
    this.boxes = [];
  }

  put(words, x, y, colour, align = "left") {
    pen.font = SMALL;
    const width = pen.measureText(words).width, left = x - { left: 0, center: width / 2, right: width }[align];
    const box = [left - 2, y - 9, left + width + 2, y + 2];
    if (left < GUTTER || left + width > stage.width) return false;
    if (this.boxes.some(it => it[0] < box[2] && box[0] < it[2] && it[1] < box[3] && box[1] < it[3])) return false;
    this.boxes.push(box);
    text(words, x, y, colour, align);
    return true;
  }
}

/** The packet that was found or clicked on, also if there are too many to draw them all. */
function drawChosen(colours) {
  const packet = view.mark === null ? null : view.packet;
  const from = packet && laneOf(packet.from), to = packet && laneOf(packet.to);
  if (!packet || from === null || to === null) return;
  pen.strokeStyle = colours.ink;
  pen.lineWidth = 3.5;
  pen.beginPath();
  for (const end of packet.ends.length ? packet.ends : [packet.last]) {
    pen.moveTo(xOf(packet.start), from);
    pen.lineTo(xOf(end), to);
  }
  pen.stroke();
}

/** A red cross for each loss; of those at one pixel one. */
function drawLosses() {
  const seen = new Set(), hasArrows = stage.segments.length > 0, { lost } = T, count = lost.length;
  pen.strokeStyle = colourOf("signs", "lost");
  pen.lineWidth = 1.8;
  pen.beginPath();
  for (let i = firstWhere(count, k => lost[k].start >= view.from); i < count && lost[i].start <= view.to; i++) {
    const packet = lost[i], y = laneOf(packet.from), x = Math.round(xOf(packet.start)), key = `${x} ${y}`;
    const isHidden = view.hidden.has(packet.look) || (view.call && packet.id !== view.call.id);
    if (y === null || seen.has(key) || isHidden) continue;
    seen.add(key);
    const half = hasArrows ? unfinished(packet, y, laneOf(packet.to)) : { x2: x, y2: y };
    addCross(half.x2, half.y2, hasArrows ? 4 : Math.min(3, stage.lane / 5));
  }
  pen.stroke();
}

function addCross(x, y, size) {
  pen.moveTo(x - size, y - size);
  pen.lineTo(x + size, y + size);
  pen.moveTo(x - size, y + size);
  pen.lineTo(x + size, y - size);
}

/** In which entry of the legend a mark is. */
function groupOf(word) {
  if (word === "fail") return "failed";
  if (word === "restart") return "restart";
  return ["call", "run", "done"].includes(word) ? "calls" : "records";
}

function drawMarks(colours) {
  const isClose = Boolean(view.call) || (stage.lane > 30 && view.to - view.from < 12), places = new Labels();
  for (let i = firstWhere(T.marks.length, k => T.moments[T.marks[k].at] >= view.from); i < T.marks.length; i++) {
    const mark = T.marks[i], y = laneOf(mark.host), x = xOf(T.moments[mark.at]), group = groupOf(mark.word);
    if (T.moments[mark.at] > view.to) break;
    const isOther = view.call && mark.id !== view.call.id && group !== "restart";
    if (y === null || view.hidden.has(group) || isOther) continue;
    if (group === "restart") drawRestart(x, y, places);
    else if (group === "failed") drawFailure(x, y, isClose && places);
    else if (isClose) drawDot(mark, x, y, colours, places);
  }
}

function drawRestart(x, y, places) {
  pen.fillStyle = colourOf("signs", "restart");
  pen.fillRect(x - 1, y - stage.lane / 2, 2, stage.lane - 2);
  if (stage.lane > 14) places.put("restart", x + 4, y - stage.lane / 2 + 10, colourOf("signs", "restart"));
}

function drawFailure(x, y, places) {
  pen.fillStyle = colourOf("signs", "failed");
  pen.fillRect(x - 3, y - 3, 6, 6);
  if (places) places.put("fail", x + 6, y - 6, colourOf("signs", "failed"));
}

function drawDot(mark, x, y, colours, places) {
  pen.fillStyle = colours.ink;
  pen.beginPath();
  pen.arc(x, y, 2.6, 0, 2 * Math.PI);
  pen.fill();
  const words = view.call || !mark.id ? mark.word : `${mark.word} ${mark.id}`, isRight = x + 90 > stage.width;
  places.put(words, isRight ? x - 5 : x + 5, y - 6, colours.ink, isRight ? "right" : "left");
}
