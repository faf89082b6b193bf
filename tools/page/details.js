// ---- Beside the picture: what is chosen, in words.

const MANY = 400; // lines that are made at once

/** A row of cells; numbers stand to the right. */
function cells(data, ...values) {
  const cell = value => {
    if (value instanceof Node) return make("td", {}, value);
    const words = typeof value === "number" ? commas(value) : value;
    return make("td", { className: /^[\d,.]+( |$|%)/.test(words) ? "number" : "" }, words);
  };
  return make("tr", { data, tabIndex: 0, className: "link" }, ...values.map(cell));
}

function patch(colour) {
  return make("span", { className: "patch", style: { background: colour } });
}

function showCall(call) {
  const phases = phasesOf(call), chosen = phases[view.phase] || longestOf(phases), host = granterOf(call, chosen);
  const rivals = rivalsOf(call, host, chosen.from, chosen.to);
  at("details").replaceChildren(
    make("h3", {}, `call ${nameOf(call)}`), make("p", {}, sentenceOf(call)),
    make("p", {}, ...reasonOf(call, chosen, host, rivals)), phaseTable(phases, call),
    ...(rivals.length ? [make("p", {}, "granted meanwhile:"), rivalTable(rivals)] : []), ...lineList(linesOf(call)),
  );
  at("details").scrollTop = 0;
}

/** The phases that there were; a click on one asks who was granted in it. */
function phaseTable(phases, call) {
  const name = phase => make("span", {}, patch(colourOf("phases", phase.name)), phase.words);
  const row = phase => cells({ phase: phases.indexOf(phase) }, name(phase), `${phase.from} to ${phase.to}`, phase.ticks,
    share(phase.ticks, call.ticks));
  return make("table", { id: "phases" }, ...phases.filter(phase => phase.stop > phase.start).map(row));
}

const share = (ticks, whole) => (whole ? `${Math.round((100 * ticks) / whole)}%` : "");

function sentenceOf(call) {
  const response = call.response === null ? "no response is known" : `${commas(call.response)} back`;
  const slow = slowdownOf(call, view.alone);
  const alone = slow === null ? "" : `, ${commas(aloneTicks(call, view.alone))} alone: ${slow.toFixed(2)} times longer`;
  const way = `from host ${call.client} to host ${call.server}, service ${call.service}`;
  const ticks = call.ticks === null ? "Not over" : `${commas(call.ticks)} ticks`;
  return `${commas(call.request)} bytes ${way}; ${response}; ${call.state}. ${ticks}${alone}. ` +
    `${counted(call.resends, "RESEND")}, ${commas(call.again)} bytes sent again.`;
}

/** Why: the phase that is looked at (the longest, or one that was clicked on), and who was granted in it. */
function reasonOf(call, phase, host, rivals) {
  const bytes = rivals.reduce((sum, rival) => sum + rival.bytes, 0), of = call.ticks ? ` of ${commas(call.ticks)}` : "";
  const others = rivals.length === 1 ? "another message" : `${rivals.length} other messages`;
  const granted = isElsewhere(T, host) ? `Host ${host} is in another process: to whom it granted meanwhile isn't known.`
    : rivals.length ? `Host ${host} granted ${commas(bytes)} bytes to ${others} meanwhile.`
      : `Host ${host} sent GRANTs to no other message meanwhile.`;
  return [make("b", {}, `${commas(phase.ticks)}${of} ticks: ${phase.words}. `), granted];
}

function rivalTable(rivals) {
  const span = lines => `${tickAt(T, lines[0])} to ${tickAt(T, lines.at(-1))}`;
  const row = rival => cells({ call: rival.id }, rival.id, `${commas(rival.bytes)} bytes`,
    counted(rival.lines.length, "GRANT"), span(rival.lines));
  return make("table", { id: "rivals" }, ...rivals.slice(0, 12).map(row));
}

/** All lines, each a link to its place; many are made when they are asked for. */
function lineList(lines) {
  const words = line => `${placeOf(line)}  ${T.lines[line]}`;
  const row = line => make("div", { className: "line", tabIndex: 0, data: { line } }, words(line));
  const box = make("div", { id: "lines" }, ...lines.slice(0, MANY).map(row));
  const more = lines.length > MANY ? [make("button", {
    textContent: `${commas(lines.length - MANY)} more lines`,
    onclick: event => event.target.replaceWith(...lines.slice(MANY).map(row)),
  })] : [];
  box.append(...more);
  return [make("p", {}, `${counted(lines.length, "line")} (tick #place in it; a click shows where):`), box];
}

/** Why a link was idle: what its host was owed, and what those who owed it sent instead. */
function showSpell(spell) {
  const owed = owedTo(spell.host, spell.from), sent = sentBetween(spell.from, spell.to);
  const elsewhere = sender => {
    const to = [...(sent.get(sender) || [])].filter(([host]) => host !== spell.host).sort((a, b) => b[1] - a[1]);
    return to.length ? to.slice(0, 3).map(([host, bytes]) => `${commas(bytes)} to ${host}`).join(", ") : "nothing";
  };
  const row = it => cells({ call: nameOf(it.call) }, it.call.id, it.arrived, it.granted, it.length,
    `host ${it.sender}: ${elsewhere(it.sender)}`);
  const headings = ["call", "arrived", "granted", "of", "its sender sent instead"].map(name => make("th", {}, name));
  const owing = owed.length === 1 ? "message wasn't" : "messages weren't";
  at("details").replaceChildren(
    make("h3", {}, `host ${spell.host}, ticks ${spell.from} to ${spell.to}`),
    make("p", {}, make("b", {}, `${commas(spell.ticks)} ticks: ${spell.why}. `),
      `${owed.length} ${owing} whole; those who owed its bytes sent to others:`),
    make("table", { id: "owed" }, make("tr", {}, ...headings), ...owed.map(row)),
  );
  at("details").scrollTop = 0;
}

function choosePhase(place) {
  const phase = phasesOf(view.call)[place];
  view.phase = place;
  showCall(view.call);
  lookAround(phase.start, phase.stop, 0.1, 0.4);
  keepAddress();
}

/** A click on a row of the details: a phase, a call, a line. */
function openDetail(target) {
  const { phase, call, line } = target.closest("[data-phase], [data-call], [data-line]")?.dataset || {};
  if (phase !== undefined) choosePhase(Number(phase));
  else if (call !== undefined && callNamed(call)) choose(callNamed(call), { isStep: true });
  else if (line !== undefined) goTo(Number(line));
}

/** What the pointer is on, in words. */
function tipOf(x, y) {
  const segment = nearest(x, y);
  if (segment) return packetWords(segment.packet);
  const place = Math.floor((y - stage.top) / stage.lane), host = stage.hosts[place];
  if (host === undefined || y < stage.top || x < GUTTER) return "";
  const slot = slotAt(momentOf(x)), cell = slot * T.hosts + host, flags = T.flags.values[cell];
  const why = flags & UNGRANTED ? "; bytes wait, and nothing is granted" : "; bytes wait for grants";
  const waits = flags & WAITS ? why : "";
  return `host ${host}, tick ${T.slots[slot]}: ${commas(T.received.values[cell])} bytes arrived${waits}`;
}

function packetWords(packet) {
  const range = `bytes ${commas(packet.offset)} to ${commas(packet.offset + packet.size)} of ${commas(packet.length)}`;
  const what = {
    DATA: `, ${packet.role === "c" ? "request" : "response"}, ${range}, level ${packet.level}`,
    GRANT: ` up to ${commas(packet.offset)}`,
    RESEND: packet.asks ? ` of ${packet.asks.map(commas).join(" to ")}` : "",
  }[packet.kind] || "";
  const sent = packet.isOwn ? `sent in tick ${tickAt(T, packet.at)}` : "sent elsewhere";
  const ticks = packet.arrivals.map(line => tickAt(T, line)).join(" and ");
  const name = packet.number === null ? "" : `; packet ${packet.number}`;
  const fate = {
    arrived: `arrived in ${ticks}${packet.refused.length ? " and was refused" : ""}`, elsewhere: "to a host elsewhere",
    lost: "lost", "under way": "under way at the end",
  }[packet.fate];
  return `${packet.kind}${what}; call ${packet.id}, host ${packet.from} to ${packet.to}; ${sent}, ${fate}${name}`;
}

/** The arrow at the pointer. */
function nearest(x, y) {
  let best = null, least = 8;
  for (const segment of stage.segments) {
    const dx = segment.x2 - segment.x1, dy = segment.y2 - segment.y1;
    const along = Math.max(0, Math.min(1, ((x - segment.x1) * dx + (y - segment.y1) * dy) / (dx * dx + dy * dy || 1)));
    const distance = Math.hypot(x - segment.x1 - along * dx, y - segment.y1 - along * dy);
    if (distance < least) [least, best] = [distance, segment];
  }
  return best;
}
