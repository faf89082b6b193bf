// ---- What the page needs of a trace beside its lines: moments, fates of packets, sums by tick, idle spells.

let T = null; // the trace that is shown

/** Of a trace that was read to its end all that is made once. */
function completed(trace) {
  trace.lastTick = trace.slots.at(-1);
  trace.end = trace.lastTick + 1;
  trace.hosts = trace.settings.hosts;
  placeLines(trace);
  judgePackets(trace);
  sumTicks(trace);
  findIdle(trace);
  findFaults(trace);
  for (const call of trace.calls) {
    call.start = tickAt(trace, call.at);
    call.ticks = call.end === null ? null : tickAt(trace, call.end) - call.start;
  }
  return trace;
}

const tickAt = (trace, line) => trace.ticks.values[line];

/** Gives each line of a tick a place within it, in their order: it is an order and no time. */
function placeLines(trace) {
  const count = trace.lines.length, moments = new Float64Array(count + 1);
  trace.firsts.forEach((from, slot) => {
    const to = slot + 1 < trace.firsts.length ? trace.firsts[slot + 1] : count;
    for (let line = from; line < to; line++) {
      moments[line] = trace.slots[slot] + (0.94 * (line - from)) / Math.max(1, to - from);
    }
  });
  moments[count] = trace.end;
  trace.moments = moments;
}

/** Whether a host is in another process: that of a node's trace has no line at it. */
function isElsewhere(trace, host) {
  return trace.isNode && !trace.here.has(host);
}

function fateOf(trace, packet) {
  if (packet.arrivals.length) return "arrived";
  if (isElsewhere(trace, packet.to)) return "elsewhere";
  return trace.lastTick - tickAt(trace, packet.at) <= trace.longest ? "under way" : "lost";
}

/** What became of each packet, and where it is in time; packets are then in the order of their beginning. */
function judgePackets(trace) {
  const { moments, packets } = trace;
  for (const packet of packets) {
    packet.fate = fateOf(trace, packet);
    packet.look = packet.kind === "DATA" && packet.offset >= trace.settings.unsched ? "SCHEDULED" : packet.kind;
    packet.ends = packet.arrivals.map(line => moments[line]);
    packet.start = packet.isOwn ? moments[packet.at] : moments[packet.at] - 0.3;
    packet.last = packet.ends.length ? packet.ends.at(-1) : packet.start + 0.5;
  }
  packets.sort((a, b) => a.start - b.start);
  trace.reach = new Float64Array(packets.length); // the latest end so far: what is in view is found by halving
  packets.forEach((packet, i) => { trace.reach[i] = Math.max(packet.last, i ? trace.reach[i - 1] : 0); });
  trace.lost = packets.filter(packet => packet.fate === "lost");
  trace.fates = { arrived: 0, elsewhere: 0, "under way": 0, lost: 0 };
  for (const packet of packets) trace.fates[packet.fate]++;
}

/** Sums from the start to each tick, so that what a pixel shows is a difference of two. */
function sumTicks(trace) {
  const { hosts, slots } = trace, received = trace.received.values, flags = trace.flags.values;
  trace.sums = Array.from({ length: hosts }, () => new Float64Array(slots.length + 1));
  trace.idleSums = Array.from({ length: hosts }, () => new Uint32Array(slots.length + 1));
  trace.all = new Float64Array(slots.length + 1);
  trace.most = 1;
  for (let slot = 0; slot < slots.length; slot++) {
    trace.all[slot + 1] = trace.all[slot];
    for (let host = 0; host < hosts; host++) {
      const bytes = received[slot * hosts + host], isIdle = isIdleBy(flags[slot * hosts + host]);
      trace.sums[host][slot + 1] = trace.sums[host][slot] + bytes;
      trace.idleSums[host][slot + 1] = trace.idleSums[host][slot] + (isIdle ? 1 : 0);
      trace.all[slot + 1] += bytes;
      trace.most = Math.max(trace.most, bytes);
    }
  }
}

/** A link is idle in a tick in which its host received no DATA, and knew of a message that isn't granted whole. */
function isIdleBy(flags) {
  return (flags & (WAITS | SILENT)) === (WAITS | SILENT);
}

function findIdle(trace) {
  const { slots, hosts } = trace, flags = trace.flags.values;
  trace.idle = [];
  for (let host = 0; host < hosts; host++) {
    for (let slot = 0, from = -1; slot <= slots.length; slot++) {
      const isIdle = slot < slots.length && isIdleBy(flags[slot * hosts + host]);
      if (isIdle && from < 0) from = slot;
      if (isIdle || from < 0) continue;
      const to = slot < slots.length ? slots[slot] : trace.end, isGranted = !(flags[from * hosts + host] & UNGRANTED);
      const why = isGranted ? "granted, nothing arrived" : "nothing granted";
      trace.idle.push({ host, from: slots[from], to, ticks: to - slots[from], why });
      from = -1;
    }
  }
}

const FAULTS = new Set(["fail", "restart", "drop", "full", "gaps", "stale", "junk"]);

/** What went wrong beside losses, a row for each line. */
function findFaults(trace) {
  trace.faults = trace.marks.filter(mark => FAULTS.has(mark.word)).map(mark => {
    const words = trace.lines[mark.at].split(" "), why = words.slice(mark.word === "fail" ? 2 : 3).join(" ");
    return { tick: tickAt(trace, mark.at), what: mark.word, host: mark.host, id: mark.id, why, mark };
  });
}

/** The first index from which on a test holds: halving. */
function firstWhere(count, test) {
  let low = 0, high = count;
  while (low < high) {
    const middle = (low + high) >> 1;
    if (test(middle)) high = middle;
    else low = middle + 1;
  }
  return low;
}

/** The tick that a moment lies in, as its place among those with lines. */
function slotAt(moment) {
  return Math.max(0, firstWhere(T.slots.length, i => T.slots[i] > moment + 1e-9) - 1);
}

/** A line's place as `131 #7`: the seventh line of tick 131. */
function placeOf(line) {
  const slot = Math.max(0, firstWhere(T.firsts.length, i => T.firsts[i] > line) - 1);
  return `${T.slots[slot]} #${line - T.firsts[slot]}`;
}

/** How many ticks a call takes alone: those of one of a packet each way, and one more for each further `rate` bytes. */
function aloneTicks(call, alone) {
  const { rate } = T.settings;
  return Math.max(1, alone + Math.ceil(call.request / rate) + Math.ceil((call.response || 0) / rate) - 2);
}

/** How many times longer a call took than alone, if that is known: `alone` is what one packet each way takes. */
function slowdownOf(call, alone) {
  return alone === null || call.state !== "done" || !call.ticks ? null : call.ticks / aloneTicks(call, alone);
}

/** The name of a call in lists and addresses: a second one of the same id has its number behind it. */
function nameOf(call) {
  const all = T.byId.get(call.id);
  return all.length === 1 ? call.id : `${call.id}:${all.indexOf(call) + 1}`;
}

function callNamed(name) {
  const [id, number] = name.split(":"), all = T.byId.get(id) || [];
  return number ? all[number - 1] : all.at(-1);
}

/** All lines of a call, in order. */
function linesOf(call) {
  const found = new Set([call.at]);
  for (const packet of call.packets) for (const line of [packet.at, ...packet.arrivals]) found.add(line);
  for (const mark of T.marks) if (mark.id === call.id) found.add(mark.at);
  return [...found].sort((a, b) => a - b);
}
