// ---- The reader: one pass over a trace's lines, whole or thinned.

const SHOWN = 40; // a longer word of bytes is shown by its number of bytes

/** How many bytes a word has: hex digits, `*N`, a head with the number of the rest (`0101..*1400`), or `-`. */
function sizeOf(word) {
  if (word === "-") return 0;
  const star = word.indexOf("*");
  return star < 0 ? word.length >> 1 : (star >> 1) + Number(word.slice(star + 1));
}

/** A word as the page keeps it: many bytes as their number. */
function shortened(word) {
  return word.length > SHOWN && /^[0-9a-f*]+$/.test(word) ? `*${sizeOf(word)}` : word;
}

/** Which bytes of a message there are: ranges in order that don't touch. */
class Ranges {
  constructor() {
    this.parts = [];
    this.count = 0;
  }

  /** Adds bytes; returns how many of them are new. */
  add(from, to) {
    const before = this.count, parts = this.parts;
    let first = parts.length;
    while (first > 0 && parts[first - 1][1] >= from) first--;
    let last = first;
    for (; last < parts.length && parts[last][0] <= to; last++) {
      from = Math.min(from, parts[last][0]);
      to = Math.max(to, parts[last][1]);
      this.count -= parts[last][1] - parts[last][0];
    }
    parts.splice(first, last - first, [from, to]);
    this.count += to - from;
    return this.count - before;
  }

  /** Whether all bytes from 0 up to this offset are there. */
  hasUpTo(offset) {
    return this.parts.length > 0 && this.parts[0][0] === 0 && this.parts[0][1] >= offset;
  }
}

/** A message at its receiver, from its first piece on until it is whole or given up. */
class Incoming {
  constructor(host, length, granted) {
    Object.assign(this, { host, length, granted, bytes: new Ranges(), isOver: false });
  }

  /** Whether it waits for grants: 1 or 0. */
  get waits() {
    return !this.isOver && this.granted < this.length ? 1 : 0;
  }

  /** How many bytes were granted and haven't arrived. */
  get owed() {
    return this.isOver ? 0 : Math.max(0, this.granted - this.bytes.count);
  }
}

/** Numbers that are added one by one and kept in a typed array. */
class Column {
  constructor(Type = Float64Array) {
    this.values = new Type(1024);
    this.length = 0;
  }

  push(value) {
    if (this.length === this.values.length) {
      const longer = new this.values.constructor(2 * this.length);
      longer.set(this.values);
      this.values = longer;
    }
    this.values[this.length++] = value;
  }
}

/** What a `send` line would say of a datagram, from the incarnation on; null if the bytes are no packet. */
function wordsOfDatagram(word, sender, receiver, wire) {
  const hex = word.split("*")[0], body = wire === 2 ? 24 : 16;
  const number = (at, width) => parseInt(hex.slice(2 * at, 2 * (at + width)), 16);
  const kind = KINDS[number(1, 1) - 1], role = number(2, 1);
  if (hex.length < 2 * body || number(0, 1) !== wire || !kind || role > 1) return null;
  const client = role ? receiver : sender;
  const head = [number(4, 4), kind, "cs"[role], `${client}.${number(8, 4)}.${number(12, 4)}`].map(String);
  if (kind === "DATA") {
    const fields = [number(3, 1), number(body, 4), number(body + 4, 4), number(body + 8, 2), number(body + 10, 1)];
    return [...head, ...fields.map(String), "-", `*${sizeOf(word) - body - 20}`];
  }
  const widths = { GRANT: [4, 1], RESEND: [4, 4, 1], CUTOFFS: [2, 4, 4, 4, 4, 4, 4, 4, 4], UNKNOWN: [1] }[kind] || [];
  let at = body;
  return [...head, ...widths.map(width => String(number((at += width) - width, width)))];
}

/** What tells apart the packets from one host to another, by the words of a `send` line from the incarnation on. */
function flightOf(sender, receiver, words) {
  const [inc, kind, role, id] = words, head = `${sender}>${receiver} ${inc} ${kind} ${role} ${id}`;
  if (kind === "DATA") return `${head} ${words[4]} ${words[6]} ${sizeOf(words[10])}`;
  return kind === "ACK" ? head : `${head} ${words.slice(4).join(" ")}`;
}

/** A packet, of the words of its `send` line from the incarnation on. */
function packetOf(number, sender, receiver, words, at, isOwn) {
  const packet = {
    number, from: sender, to: receiver, inc: words[0], kind: words[1], role: words[2], id: words[3],
    level: 7, offset: 0, size: 0, length: 0, at, isOwn,
    arrivals: [], refused: [], // lines that brought it; of these those whose next line refused it
  };
  if (packet.kind === "DATA") {
    Object.assign(packet, { level: +words[4], length: +words[5], offset: +words[6], size: sizeOf(words[10]) });
  } else if (packet.kind === "GRANT") packet.offset = +words[4];
  else if (packet.kind === "RESEND") packet.asks = [+words[4], +words[5]];
  return packet;
}

function callOf(words, at) {
  return {
    id: words[1], client: Number(words[1].split(".")[0]), server: +words[2], service: +words[3],
    request: sizeOf(words[4]), response: null, state: "open",
    // lines of the trace: the call, its first byte is sent, its unscheduled bytes have arrived, its first GRANT is
    // sent, it runs, the first byte of its response is sent, it ends
    at, out: null, there: null, granted: null, ran: null, back: null, end: null,
    data: 0, grants: 0, resends: 0, busy: 0, again: 0, packets: [],
    // of request and response: the line at which each byte was sent once, and whether bytes were sent again after it
    sent: new Map(), once: { c: null, s: null }, mended: { c: false, s: false },
  };
}

/** Takes a trace line by line; `trace` is what it has read. */
class Reader {
  constructor() {
    this.trace = {
      settings: null, lines: [], ticks: new Column(), slots: [0], firsts: [0], packets: [], calls: [], byId: new Map(),
      marks: [], grants: [], here: new Set(), isNode: false, last: "", again: 0, longest: 0,
      received: new Column(), flags: new Column(Uint8Array), // of each tick: a row, a value for each host
    };
    this.tick = 0;
    this.numbers = []; // packets by their number
    this.flights = new Map(); // packets by what tells them apart, in a node's trace
    this.messages = new Map(); // by call and role, and of a response by its server's incarnation
    this.lives = new Map(); // the key of the response that a call receives
    this.arriving = null; // what the last line brought: the next one may take it back
    this.rows = null; // of each host: bytes received in this tick, messages that wait for grants, bytes that are owed
    this.isReplay = false; // it has a `deliver` line, so no `recv`
  }

  take(line) {
    const words = line.split(" "), trace = this.trace, at = trace.lines.length;
    if (at === 0) this.begin(words, line);
    else if (trace.last) throw new Error(`line ${at + 1} stands after the last line of the trace`);
    else if (at > 0 && words[0] === "settings") throw new Error(`line ${at + 1} has settings, as the first one had`);
    this.settle(words);
    const act = LINES[words[0]];
    if (!act) throw new Error(`line ${at + 1} is no line of a trace: ${line.slice(0, 60)}`);
    trace.lines.push(words.map(shortened).join(" "));
    trace.ticks.push(this.tick);
    act(this, words, at);
  }

  begin(words, line) {
    const isRun = words[0] === "settings";
    if (!isRun && words[0] !== "refused") throw new Error(`line 1 is no line of a trace: ${line.slice(0, 60)}`);
    const values = SETTINGS.map(([name, usual], i) => [name, Number((isRun && words[i + 1]) || usual)]);
    this.trace.settings = Object.fromEntries(values);
    const { hosts } = this.trace.settings;
    this.rows = {
      received: new Float64Array(hosts), waiting: new Int32Array(hosts), owed: new Float64Array(hosts),
    };
  }

  callOf(id) {
    return this.trace.byId.get(id)?.at(-1);
  }

  /** Ends a tick: what each host received in it, and whether it waited. */
  close() {
    const { received, waiting, owed } = this.rows;
    for (let host = 0; host < received.length; host++) {
      const waits = waiting[host] > 0 ? WAITS : 0, ungranted = owed[host] <= 0 ? UNGRANTED : 0;
      this.trace.received.push(received[host]);
      this.trace.flags.push(waits | ungranted | (received[host] === 0 ? SILENT : 0));
    }
    received.fill(0);
  }

  /** Changes a message, and its host's sums with it. */
  change(message, act) {
    const { waits, owed, host } = message;
    act(message);
    this.rows.waiting[host] += message.waits - waits;
    this.rows.owed[host] += message.owed - owed;
  }

  giveUp(key) {
    const message = this.messages.get(key);
    if (!message) return;
    this.change(message, it => { it.isOver = true; });
    this.messages.delete(key);
  }

  deliver(packet, line) {
    if (packet.arrivals.length === 0 && packet.isOwn) {
      this.trace.longest = Math.max(this.trace.longest, this.tick - this.trace.ticks.values[packet.at]);
    }
    packet.arrivals.push(line);
    if (packet.kind === "DATA") this.rows.received[packet.to] += packet.size;
    this.arriving = { packet, line };
  }

  /** The bytes that the line before brought have arrived, unless this one refuses them. */
  settle(words) {
    if (!this.arriving) return;
    const { packet, line } = this.arriving, isRefused = REFUSALS.has(words[0]) && +words[1] === packet.to;
    this.arriving = null;
    if (isRefused) packet.refused.push(line);
    else if (packet.kind === "DATA") this.arrive(packet, line);
  }

  arrive(packet, line) {
    const call = this.callOf(packet.id), isResponse = packet.role === "s";
    if (isResponse && (!call || call.end !== null)) return;
    const key = packet.id + packet.role + (isResponse ? packet.inc : "");
    const message = this.messages.get(key) || this.open(key, packet);
    if (message.isOver) return;
    this.change(message, it => it.bytes.add(packet.offset, packet.offset + packet.size));
    const free = Math.min(this.trace.settings.unsched, packet.length);
    if (!isResponse && call?.end === null && call.there === null && message.bytes.hasUpTo(free)) call.there = line;
    if (message.bytes.count >= packet.length) this.change(message, it => { it.isOver = true; });
  }

  open(key, packet) {
    const message = new Incoming(packet.to, packet.length, Math.min(this.trace.settings.unsched, packet.length));
    this.rows.waiting[packet.to] += message.waits;
    this.rows.owed[packet.to] += message.owed;
    this.messages.set(key, message);
    if (packet.role === "s") this.lives.set(packet.id, key);
    return message;
  }

  send(number, sender, receiver, words, line, isOwn) {
    const packet = packetOf(number, sender, receiver, words, line, isOwn), call = this.callOf(packet.id);
    this.trace.packets.push(packet);
    if (call) {
      call.packets.push(packet);
      if (call.end === null) this.note(call, packet, line);
    }
    if (packet.kind === "GRANT") this.grant(packet, line);
    return packet;
  }

  /** What a packet says of its call, while that is live. */
  note(call, packet, line) {
    if (packet.kind === "RESEND") call.resends++;
    if (packet.kind === "BUSY") call.busy++;
    if (packet.kind === "GRANT") {
      call.grants++;
      if (packet.role === "s") call.granted ??= line;
    }
    if (packet.kind !== "DATA") return;
    call.data++;
    if (packet.role === "c") call.out ??= line;
    else call.back ??= line;
    this.noteBytes(call, packet, line);
  }

  /** Which bytes of a message were sent by now, and which again. */
  noteBytes(call, packet, line) {
    const key = packet.role + packet.inc, sent = call.sent.get(key) || new Ranges();
    const wasWhole = sent.count >= packet.length;
    call.sent.set(key, sent);
    const again = packet.size - sent.add(packet.offset, packet.offset + packet.size);
    call.again += again;
    this.trace.again += again;
    if (!wasWhole && sent.count >= packet.length) call.once[packet.role] = line;
    else if (wasWhole && (packet.role === "s" || call.ran === null)) call.mended[packet.role] = true;
  }

  grant(packet, line) {
    const message = this.messages.get(packet.role === "s" ? `${packet.id}c` : this.lives.get(packet.id));
    if (!message || message.isOver || packet.offset <= message.granted) return;
    const more = packet.offset - message.granted;
    this.change(message, it => { it.granted = packet.offset; });
    this.trace.grants.push({ host: packet.from, id: packet.id, role: packet.role, at: line, more });
  }

  mark(host, word, id, at) {
    this.trace.here.add(host);
    this.trace.marks.push({ host, word, id, at });
  }

  restart(host) {
    const line = this.trace.lines.length - 1;
    for (const call of this.trace.calls) {
      if (call.client === host && call.end === null) this.endCall(call, "restart", line);
    }
    for (const [key, message] of [...this.messages]) if (message.host === host) this.giveUp(key);
  }

  endCall(call, state, line) {
    call.end = line;
    call.state = state;
    const key = this.lives.get(call.id);
    if (state !== "done" && key) this.giveUp(key);
  }

  finish() {
    if (!this.trace.settings) throw new Error("there is no line");
    this.settle([""]);
    this.close();
    return this.trace;
  }
}

const WAITS = 1, UNGRANTED = 2, SILENT = 4;
const HEADLESS = "this is a node's trace, thinned without the heads of its datagrams: give the whole one";
// Lines that take back what the line before them brought.
const REFUSALS = new Set(["full", "gaps", "stale"]);

/** A line of a host about a call: `drop HOST ID`, and the like. */
function noted(reader, words, at) {
  reader.mark(+words[1], words[0], words[2]?.includes(".") ? words[2] : "", at);
}

function lastLine(reader, words) {
  reader.trace.last = words.join(" ");
}

// What each line of a trace does, by its first word.
const LINES = {
  settings() {},
  call(reader, words, at) {
    const call = callOf(words, at), { calls, byId } = reader.trace;
    calls.push(call);
    byId.set(call.id, [...(byId.get(call.id) || []), call]);
    reader.mark(call.client, "call", call.id, at);
  },
  clock(reader, words, at) {
    const { trace } = reader, now = +words[1];
    if (now === 0) trace.isNode = true;
    if (now === trace.slots.at(-1)) return;
    reader.close();
    reader.tick = trace.ticks.values[at] = now;
    trace.slots.push(now);
    trace.firsts.push(at);
  },
  send(reader, words, at) {
    const [sender, receiver] = words[2].split(">").map(Number), fields = words.slice(3);
    const packet = reader.send(+words[1], sender, receiver, fields, at, true);
    reader.numbers[packet.number] = packet;
    reader.trace.here.add(sender);
    if (!reader.isReplay) reader.flights.set(flightOf(sender, receiver, fields), packet);
  },
  deliver(reader, words, at) {
    const packet = reader.numbers[+words[1]];
    if (!packet) throw new Error(`line ${at + 1}: packet ${words[1]} is delivered before it is sent`);
    reader.isReplay = true;
    reader.flights.clear();
    reader.deliver(packet, at);
  },
  recv(reader, words, at) {
    const { trace } = reader, host = +words[1], sender = +words[2];
    trace.isNode = true;
    trace.here.add(host);
    if (words[3][0] === "*" && sizeOf(words[3]) >= 16) throw new Error(HEADLESS);
    const fields = wordsOfDatagram(words[3], sender, host, trace.settings.wire);
    if (!fields) return;
    const sent = reader.flights.get(flightOf(sender, host, fields));
    reader.deliver(sent || reader.send(null, sender, host, fields, at, false), at);
  },
  run(reader, words, at) {
    const call = reader.callOf(words[2]);
    if (call?.end === null && call.ran === null) Object.assign(call, { ran: at, response: sizeOf(words[5]) });
    noted(reader, words, at);
  },
  done(reader, words, at) {
    const call = reader.callOf(words[1]);
    if (call) reader.endCall(call, "done", at);
    if (call) call.response = sizeOf(words[2]);
    reader.mark(Number(words[1].split(".")[0]), "done", words[1], at);
  },
  fail(reader, words, at) {
    const call = reader.callOf(words[1]);
    if (call) reader.endCall(call, words[2], at);
    reader.mark(Number(words[1].split(".")[0]), "fail", words[1], at);
  },
  drop(reader, words, at) {
    reader.giveUp(`${words[2]}c`);
    noted(reader, words, at);
  },
  restart(reader, words, at) {
    reader.restart(+words[1]);
    noted(reader, words, at);
  },
  bury: noted, free: noted, full: noted, gaps: noted, stale: noted, junk: noted,
  balance: noted, inject: noted, shift: noted,
  ok: lastLine, refused: lastLine, stalled: lastLine, stranger: lastLine,
};

/** Reads a trace from pieces of text, and lets the page go on meanwhile; `onProgress` hears how much was read. */
async function readTrace(pieces, onProgress) {
  const reader = new Reader();
  let rest = "", read = 0, paused = performance.now();
  for await (const piece of pieces) {
    const lines = (rest + piece).split("\n");
    rest = lines.pop();
    for (const line of lines) reader.take(line);
    read += piece.length;
    if (performance.now() - paused > 40) {
      onProgress(read);
      await new Promise(go => { setTimeout(go, 0); });
      paused = performance.now();
    }
  }
  // a last line without its line feed is taken only if it ends the trace: else it may be cut off itself
  if (/^(ok|refused|stalled|stranger) /.test(rest)) reader.take(rest);
  return completed(reader.finish());
}

/** The pieces of a text that is there already. */
function* piecesOf(text) {
  for (let at = 0; at < text.length; at += 1 << 18) yield text.slice(at, at + (1 << 18));
}

/** The pieces of a file, as it is read. */
async function* piecesOfFile(file) {
  const source = file.stream().pipeThrough(new TextDecoderStream()).getReader();
  for (let it = await source.read(); !it.done; it = await source.read()) yield it.value;
}
