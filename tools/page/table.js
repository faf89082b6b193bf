// ---- The list: calls, idle spells, losses, failures. Only the rows that are seen are made.

const HIGH = 19; // pixels of a row
// Of each tab its columns: the key of a row, and the heading.
const COLUMNS = {
  calls: [
    ["id", "call"], ["server", "to"], ["request", "bytes"], ["start", "start"], ["ticks", "ticks"],
    ["slow", "slowdown"], ["resends", "RESEND"], ["state", "end"],
  ],
  idle: [["host", "host"], ["from", "from"], ["to", "to"], ["ticks", "ticks"], ["why", "why"]],
  lost: [["tick", "tick"], ["kind", "kind"], ["id", "call"], ["way", "way"], ["bytes", "bytes"]],
  failures: [["tick", "tick"], ["what", "what"], ["host", "host"], ["id", "call"], ["why", "why"]],
};
// By which column a tab is sorted at first, and whether upwards.
const FIRST = { calls: ["ticks", false], idle: ["ticks", false], lost: ["tick", true], failures: ["tick", true] };
const TITLES = {
  id: "client.incarnation.number", server: "the server's host", request: "bytes of the request",
  start: "tick of the call", ticks: "from the first to the last tick", slow: "how many times longer than alone",
  resends: "RESENDs while it was live",
};
let rows = [];

function columnsShown() {
  return COLUMNS[view.tab].filter(([key]) => key !== "slow" || view.alone !== null);
}

function rowsOfTab() {
  if (view.tab === "calls") {
    for (const call of T.calls) call.slow = slowdownOf(call, view.alone);
    return T.calls;
  }
  if (view.tab === "idle") return T.idle;
  if (view.tab === "failures") return T.faults;
  return T.lost.map(packet => ({
    tick: tickAt(T, packet.at), kind: packet.kind, id: packet.id, way: `${packet.from}>${packet.to}`,
    bytes: packet.size, packet,
  }));
}

/** What a filter asks for: `ticks>100`, `to=3`, or the beginning of any column. */
function testOf(word) {
  const match = /^([a-z]+)([<>=])(.+)$/.exec(word), columns = columnsShown();
  const column = match && columns.find(([key, name]) => key === match[1] || name.toLowerCase() === match[1]);
  if (!column) return row => columns.some(([key]) => String(row[key]).toLowerCase().startsWith(word));
  const [key] = column, [, , sign, value] = match;
  if (sign === "=") return row => String(row[key]).toLowerCase() === value;
  return row => row[key] !== null && (sign === ">" ? row[key] > Number(value) : row[key] < Number(value));
}

function sortOf() {
  const isThere = columnsShown().some(([key]) => key === view.sort);
  return isThere ? [view.sort, view.up] : FIRST[view.tab];
}

function sortedRows() {
  const tests = view.filter.toLowerCase().split(" ").filter(Boolean).map(testOf);
  const [key, isUp] = sortOf(), sign = isUp ? 1 : -1;
  const rank = row => row[key] ?? -1;
  return rowsOfTab().filter(row => tests.every(test => test(row))).sort((a, b) => {
    const [x, y] = [rank(a), rank(b)];
    return sign * (x < y ? -1 : x > y ? 1 : 0);
  });
}

function showTable() {
  rows = sortedRows();
  const counts = { calls: T.calls.length, idle: T.idle.length, lost: T.lost.length, failures: T.faults.length };
  at("tabs").replaceChildren(...TABS.map(tab => make("button", {
    textContent: `${tab} ${commas(counts[tab])}`, className: view.tab === tab ? "on" : "", data: { tab },
    onclick: () => showTab(tab),
  })));
  at("filter").value = view.filter;
  at("alone").value = view.alone ?? "";
  at("list").scrollTop = 0;
  showRows();
}

function showTab(tab) {
  Object.assign(view, { tab, sort: "", up: false, filter: "" });
  showTable();
  keepAddress(true);
}

function cellOf(value) {
  if (value === null || value === undefined || value === "") return "-";
  if (typeof value !== "number") return String(value);
  return Number.isInteger(value) ? commas(value) : value.toFixed(2);
}

function showRows() {
  const box = at("list"), first = Math.max(0, Math.floor(box.scrollTop / HIGH) - 4), columns = columnsShown();
  const seen = rows.slice(first, first + Math.ceil(box.clientHeight / HIGH) + 8);
  const blank = count => make("tr", { style: { height: `${count * HIGH}px` }, ariaHidden: "true" });
  const row = (it, i) => make("tr", { tabIndex: 0, className: isPicked(it) ? "picked" : "", data: { row: first + i } },
    ...columns.map(([column]) => make("td", {}, cellOf(it[column]))));
  showHead(columns);
  at("rows").replaceChildren(blank(first), ...seen.map(row), blank(Math.max(0, rows.length - first - seen.length)));
  at("none").hidden = rows.length > 0;
}

function showHead(columns) {
  const [key, isUp] = sortOf(), sign = column => (key === column ? (isUp ? " ▲" : " ▼") : "");
  const heading = ([column, name]) => make("th", { tabIndex: 0, title: TITLES[column] || "", data: { key: column } },
    name + sign(column));
  at("head").replaceChildren(make("tr", {}, ...columns.map(heading)));
}

function isPicked(row) {
  return row === view.call || (view.spell !== null && row === view.spell) || (row.packet && row.packet === view.packet);
}

function sortBy(key) {
  const [was, isUp] = sortOf();
  Object.assign(view, { sort: key, up: was === key ? !isUp : false });
  showTable();
  keepAddress();
}

/** Shows what a row of the list is about. */
function pick(row) {
  if (view.tab === "calls") choose(row, { isStep: true });
  else if (view.tab === "idle") chooseSpell(row);
  else {
    const call = row.id ? callNamed(row.id) : null;
    choose(call || null, { isStep: true });
    goTo(row.packet ? row.packet.at : row.mark.at);
  }
}

/** The next or the previous row: of the call that is chosen, or of the first one. */
function pickNext(step) {
  const here = rows.findIndex(isPicked), next = here < 0 ? 0 : Math.max(0, Math.min(rows.length - 1, here + step));
  if (!rows[next]) return;
  pick(rows[next]);
  const box = at("list"), top = next * HIGH, isAbove = top < box.scrollTop;
  if (isAbove || top + 3 * HIGH > box.scrollTop + box.clientHeight) box.scrollTop = top - box.clientHeight / 2;
  showRows();
}

/** Chooses a call (or none), and shows it. */
function choose(call, { isStep = false, phase = null, side = 0 } = {}) {
  say("");
  Object.assign(view, { call, phase, side, ruler: null, mark: null, packet: null, spell: null });
  if (call) {
    lookAround(T.moments[call.at], T.moments[call.end ?? T.lines.length - 1]);
    showCall(call);
  } else at("details").replaceChildren();
  showRows();
  askDraw();
  keepAddress(isStep);
}

function chooseSpell(spell) {
  choose(null);
  view.spell = spell;
  view.ruler = [spell.from, spell.to];
  lookAround(spell.from, spell.to, 0.6, 4);
  showSpell(spell);
  showRows();
  keepAddress(true);
}

/** Shows a line's place, with the packet that it sends or brings. */
function goTo(line) {
  const span = Math.min(view.to - view.from, 24);
  view.mark = line;
  view.packet = T.packets.find(packet => packet.at === line || packet.arrivals.includes(line)) || null;
  look(T.moments[line] - span / 2, T.moments[line] + span / 2);
}
