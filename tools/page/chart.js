// ---- Drawing: one call under its lanes. Phases, bytes and rivals share the axis of time.

const ROW = 13; // pixels of a rival's row
const RIVALS = 6; // rows at most

function drawCall(top, colours) {
  const call = view.call, phases = phasesOf(call), phase = phases[view.phase] || longestOf(phases);
  drawPhases(phases, phase, top, colours);
  const rivals = rivalsOf(call, granterOf(call, phase), phase.from, phase.to), rows = Math.min(RIVALS, rivals.length);
  const messages = messagesOf(call), message = messages[view.side % Math.max(1, messages.length)], chartTop = top + 38;
  const height = Math.max(40, stage.height - chartTop - 18 - rows * ROW - (rows ? 16 : 0));
  if (message) drawBytes(call, message, chartTop, height, colours);
  if (rows) drawRivals(rivals.slice(0, rows), rivals.length, phase, chartTop + height + 18, colours);
}

/** Draws within the plot, right of the names. */
function clipped(top, act) {
  pen.save();
  pen.beginPath();
  pen.rect(GUTTER, top, plotWidth(), stage.height);
  pen.clip();
  act();
  pen.restore();
}

function drawPhases(phases, chosen, top, colours) {
  text("phases", GUTTER - 6, top + 13, colours.soft, "right");
  clipped(top - 4, () => {
    for (const phase of phases) {
      const left = xOf(phase.start), width = xOf(phase.stop) - left, colour = colourOf("phases", phase.name);
      if (width <= 0) continue;
      pen.fillStyle = colour;
      pen.fillRect(left, top, Math.max(1, width), 18);
      if (phase === chosen) {
        pen.fillStyle = colours.ink;
        pen.fillRect(left, top + 18, Math.max(1, width), 2);
      }
      const words = `${phase.words} ${phase.ticks}`;
      pen.font = SMALL;
      if (pen.measureText(words).width + 8 < width) text(words, Math.max(left, GUTTER) + 4, top + 13, inkOn(colour));
    }
  });
}

/** Black or white, whichever is read better on a colour. */
function inkOn(colour) {
  const [red, green, blue] = [1, 3, 5].map(i => parseInt(colour.slice(i, i + 2), 16));
  return 0.299 * red + 0.587 * green + 0.114 * blue > 120 ? "#111" : "#fff";
}

/** The messages of a call: the request, and the response of each incarnation of the server. */
function messagesOf(call) {
  const messages = new Map();
  for (const packet of call.packets) {
    if (packet.kind !== "DATA") continue;
    const key = packet.role + packet.inc, isRequest = packet.role === "c";
    if (!messages.has(key)) {
      messages.set(key, {
        role: packet.role, inc: packet.inc, length: packet.length, pieces: [], name: isRequest ? "request" : "response",
        sender: packet.from, receiver: packet.to, call,
      });
    }
    messages.get(key).pieces.push(packet);
  }
  return [...messages.values()].sort((a, b) => (a.role === b.role ? a.inc - b.inc : a.role < b.role ? -1 : 1));
}

/** The packets of a kind by which a message's receiver asks for it. */
function askedFor(message, kind) {
  return message.call.packets.filter(packet => packet.kind === kind && packet.role !== message.role);
}

/** Four steps over time: granted by the receiver, known to the sender, sent, arrived. */
function drawBytes(call, message, top, height, colours) {
  const yOf = bytes => top + height - (bytes / message.length) * height, { sender, receiver } = message;
  drawByteAxis(message.length, yOf, colours);
  const { granted, arrived } = receiverSteps(message), green = colourOf("packets", "GRANT");
  // a curve of a host elsewhere isn't known
  const of = (host, points) => (isElsewhere(T, host) ? [] : points);
  const curves = [
    ["granted", green, [], of(receiver, granted)],
    ["known to the sender", green, [2, 3], of(sender, knownSteps(message))],
    ["sent", colourOf("packets", "DATA"), [5, 3], of(sender, growth(message.pieces))],
    ["arrived", colours.ink, [], of(receiver, arrived)],
  ];
  clipped(top - 4, () => {
    const end = call.end === null ? T.end : T.moments[call.end];
    for (const [, colour, dash, points] of curves) if (points.length) drawStep(points, end, yOf, colour, dash);
  });
  drawKey(curves, message, top - 7, colours);
}

/** What the receiver granted and had. A restart, or a line `drop`, takes both from it. */
function receiverSteps(message) {
  const isDrop = mark => mark.word === "drop" && mark.id === message.call.id;
  const isLoss = mark => mark.host === message.receiver && (mark.word === "restart" || isDrop(mark));
  const events = [
    ...T.marks.filter(isLoss).map(mark => ({ moment: T.moments[mark.at] })),
    ...message.pieces.flatMap(piece => takenAt(piece).map(line => ({ moment: T.moments[line], piece }))),
    ...askedFor(message, "GRANT").map(grant => ({ moment: grant.start, grant })),
  ].sort((a, b) => a.moment - b.moment);
  const granted = [], arrived = [], free = Math.min(T.settings.unsched, message.length);
  let bytes = new Ranges(), top = 0;
  for (const { moment, piece, grant } of events) {
    if (piece) {
      bytes.add(piece.offset, piece.offset + piece.size);
      top = Math.max(top, free);
    } else if (grant) top = Math.max(top, grant.offset);
    else [bytes, top] = [new Ranges(), 0];
    if (!piece && !grant && !arrived.length) continue;
    granted.push([moment, top]);
    arrived.push([moment, bytes.count]);
  }
  return { granted, arrived };
}

/** Up to where the sender knows that it may send: a RESEND lets its bytes be sent, as a GRANT does. */
function knownSteps(message) {
  const asks = [...askedFor(message, "GRANT"), ...askedFor(message, "RESEND")].filter(packet => packet.ends.length);
  let top = Math.min(T.settings.unsched, message.length);
  return [[message.pieces[0].start, top], ...asks.sort((a, b) => a.ends[0] - b.ends[0]).map(packet => {
    top = Math.min(message.length, Math.max(top, packet.asks ? packet.asks[1] : packet.offset));
    return [packet.ends[0], top];
  })];
}

/** How many bytes were sent after each piece. */
function growth(pieces) {
  const bytes = new Ranges();
  return pieces.map(piece => {
    bytes.add(piece.offset, piece.offset + piece.size);
    return [piece.start, bytes.count];
  });
}

function drawByteAxis(length, yOf, colours) {
  pen.lineWidth = 1;
  for (const part of [0, 0.25, 0.5, 0.75, 1]) {
    const bytes = Math.round(length * part), y = Math.round(yOf(bytes)) + 0.5;
    pen.strokeStyle = colours.rule;
    pen.beginPath();
    pen.moveTo(GUTTER, y);
    pen.lineTo(stage.width - MARGIN, y);
    pen.stroke();
    if (length >= 4 || part === 0 || part === 1) text(commas(bytes), GUTTER - 6, y + 3, colours.soft, "right");
  }
}

function drawStep(points, end, yOf, colour, dash) {
  pen.strokeStyle = colour;
  pen.lineWidth = 2;
  pen.setLineDash(dash);
  pen.beginPath();
  let y = yOf(0);
  pen.moveTo(xOf(points[0][0]), y);
  for (const [moment, bytes] of points) {
    const x = xOf(moment);
    pen.lineTo(x, y);
    y = yOf(bytes);
    pen.lineTo(x, y);
  }
  pen.lineTo(xOf(Math.max(end, points.at(-1)[0])), y);
  pen.stroke();
  pen.setLineDash([]);
}

function drawKey(curves, message, y, colours) {
  const life = message.inc === "1" ? "" : ` of incarnation ${message.inc}`;
  let x = GUTTER + 6;
  const put = (words, colour) => {
    text(words, x, y, colour);
    x += pen.measureText(words).width + 12;
  };
  put(`bytes of the ${message.name}${life} (b: the next)`, colours.soft);
  for (const [words, colour, dash, points] of curves) {
    if (!points.length) continue;
    pen.strokeStyle = colour;
    pen.lineWidth = 2;
    pen.setLineDash(dash);
    pen.beginPath();
    pen.moveTo(x, y - 3);
    pen.lineTo(x + 20, y - 3);
    pen.stroke();
    pen.setLineDash([]);
    x += 24;
    put(words, colour);
  }
  const unknown = curves.filter(curve => !curve[3].length).map(curve => curve[0]);
  if (unknown.length) put(`(elsewhere: ${unknown.join(", ")})`, colours.soft);
}

/** Who was granted meanwhile: a bar from the first GRANT to the last, a line for each. */
function drawRivals(rivals, count, phase, top, colours) {
  const host = granterOf(view.call, phase);
  const words = `granted by host ${host} in ticks ${phase.from} to ${phase.to}: ${counted(count, "other")}`;
  text(words, GUTTER, top, colours.soft);
  rivals.forEach((rival, i) => {
    const y = top + 6 + ROW * i, colour = colourOf("packets", "GRANT");
    const xs = rival.lines.map(line => xOf(T.moments[line]));
    text(rival.id, GUTTER - 6, y + 8, colours.ink, "right");
    clipped(y, () => {
      pen.fillStyle = `${colour}40`;
      pen.fillRect(xs[0], y + 2, Math.max(2, xs.at(-1) - xs[0]), 7);
      pen.fillStyle = colour;
      for (const x of xs) pen.fillRect(x, y + 1, 1.5, 9);
    });
  });
}
