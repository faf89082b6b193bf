// ---- Why a call took what it took: its phases, who was granted meanwhile, what an idle host was owed.

/** The phases of a call, which together are its time. Each ends where the next one begins. */
function phasesOf(call) {
  const end = call.end ?? T.lines.length - 1, isLong = call.request > T.settings.unsched;
  const there = isLong ? earliest(call.there, call.granted) : call.ran;
  const repair = call.mended.c ? call.once.c : call.ran, responseRepair = call.mended.s ? call.once.s : end;
  const granted = isLong ? call.granted : call.ran;
  const begins = [call.at, call.out, there, granted, repair, call.ran, call.back, responseRepair, end];
  const last = begins.length - 1;
  // a phase that never came begins where the next one does; none begins before the one before it
  for (let i = last - 1; i > 0; i--) begins[i] = Math.min(begins[i] ?? begins[i + 1], begins[i + 1]);
  for (let i = 1; i <= last; i++) begins[i] = Math.max(begins[i], begins[i - 1]);
  return Object.keys(LOOKS.phases).map((name, i) => ({
    name, words: LOOKS.phases[name].words, from: tickAt(T, begins[i]), to: tickAt(T, begins[i + 1]),
    ticks: tickAt(T, begins[i + 1]) - tickAt(T, begins[i]), start: T.moments[begins[i]], stop: T.moments[begins[i + 1]],
  }));
}

function earliest(...lines) {
  const known = lines.filter(line => line !== null);
  return known.length ? Math.min(...known) : null;
}

function longestOf(phases) {
  return phases.reduce((best, phase) => (phase.ticks > best.ticks ? phase : best));
}

/** Who grants in a phase: the client if the response is under way, else the server. */
function granterOf(call, phase) {
  return phase.name.startsWith("response") ? call.client : call.server;
}

/** The other messages to which a host sent GRANTs in these ticks, those with the most bytes first. */
function rivalsOf(call, host, from, to) {
  const found = new Map();
  for (const grant of T.grants) {
    const tick = tickAt(T, grant.at);
    if (grant.host !== host || grant.id === call.id || tick < from || tick > to) continue;
    const rival = found.get(grant.id) || { id: grant.id, bytes: 0, lines: [] };
    rival.bytes += grant.more;
    rival.lines.push(grant.at);
    found.set(grant.id, rival);
  }
  return [...found.values()].sort((a, b) => b.bytes - a.bytes);
}

/** The messages that a host knew of at a tick and that weren't whole: what had arrived, and what was granted. */
function owedTo(host, from) {
  const owed = [];
  for (const call of T.calls) {
    if (call.end !== null && tickAt(T, call.end) < from) continue;
    for (const role of ["c", "s"]) {
      const message = (role === "c" ? call.server : call.client) === host ? messageAt(call, role, from) : null;
      if (message && message.arrived > 0 && message.arrived < message.length) owed.push(message);
    }
  }
  return owed.sort((a, b) => a.length - a.arrived - (b.length - b.arrived));
}

/** The lines at which a packet arrived and wasn't refused. */
function takenAt(packet) {
  return packet.arrivals.filter(line => !packet.refused.includes(line));
}

/** What had arrived and what was granted of a message before a tick. */
function messageAt(call, role, tick) {
  const isBefore = line => tickAt(T, line) < tick, bytes = new Ranges();
  const pieces = call.packets.filter(packet => packet.role === role && packet.kind === "DATA");
  if (!pieces.length) return null;
  for (const piece of pieces) if (takenAt(piece).some(isBefore)) bytes.add(piece.offset, piece.offset + piece.size);
  const grants = call.packets.filter(packet => packet.kind === "GRANT" && packet.role !== role && isBefore(packet.at));
  const { length } = pieces[0], free = Math.min(T.settings.unsched, length);
  const granted = Math.max(free, ...grants.map(grant => grant.offset));
  return { call, role, length, sender: role === "c" ? call.client : call.server, arrived: bytes.count, granted };
}

/** How many bytes of DATA each host sent to each other one in these ticks. */
function sentBetween(from, to) {
  const sums = new Map();
  for (const packet of T.packets) {
    const tick = tickAt(T, packet.at);
    if (packet.kind !== "DATA" || !packet.isOwn || tick < from || tick >= to) continue;
    const row = sums.get(packet.from) || new Map();
    row.set(packet.to, (row.get(packet.to) || 0) + packet.size);
    sums.set(packet.from, row);
  }
  return sums;
}
