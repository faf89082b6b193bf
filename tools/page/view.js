// ---- What is shown: the part in view, what is chosen, and the address that keeps it.

const at = id => document.getElementById(id);
const commas = number => number.toLocaleString("en-US");
const counted = (number, word) => `${commas(number)} ${word}${number === 1 ? "" : "s"}`;
const TABS = ["calls", "idle", "lost", "failures"];
const LEAST = 0.1; // ticks: no closer

const view = {
  from: 0, to: 1, call: null, side: 0, phase: null, hosts: null, hidden: new Set(), tab: "calls", sort: "", up: false,
  filter: "", ruler: null, mark: null, packet: null, spell: null, found: [], hit: -1, alone: null, theme: "",
};

/** An element with properties and children; texts are texts, never markup. */
function make(tag, properties = {}, ...children) {
  const { data, style, ...rest } = properties, element = Object.assign(document.createElement(tag), rest);
  Object.assign(element.dataset, data);
  Object.assign(element.style, style);
  element.append(...children.flat().filter(child => child !== null && child !== undefined));
  return element;
}

/** Shows a part of the run: never beyond the trace, never closer than a line's place. */
function look(from, to) {
  const span = Math.max(Math.min(T.end, LEAST), Math.min(1.02 * T.end, to - from)), middle = (from + to) / 2;
  view.from = Math.max(-0.01 * T.end, Math.min(middle - span / 2, 1.01 * T.end - span));
  view.to = view.from + span;
  askDraw();
  keepAddress();
}

function lookAround(from, to, part = 0.06, least = 0.5) {
  const pad = Math.max(least, (to - from) * part);
  look(from - pad, to + pad);
}

const zoom = (factor, middle = (view.from + view.to) / 2) =>
  look(middle - (middle - view.from) * factor, middle + (view.to - middle) * factor);
const move = part => look(view.from + part * (view.to - view.from), view.to + part * (view.to - view.from));

/** Hosts by a word as `0-3,7`, in its order; null if it is no such word, or names none that is there. */
function hostsOf(word) {
  const found = new Set();
  for (const part of word.split(",").map(it => it.trim()).filter(Boolean)) {
    const match = /^(\d+)(?:-(\d+))?$/.exec(part);
    if (!match || +match[1] >= T.hosts || +(match[2] ?? match[1]) >= T.hosts) return null;
    for (let host = +match[1]; host <= +(match[2] ?? match[1]); host++) found.add(host);
  }
  return found.size ? [...found] : null;
}

/** The lanes: the hosts of the chosen call, or those that were asked for, or all. */
function hostsShown() {
  if (view.call) return [...new Set([view.call.client, view.call.server])].sort((a, b) => a - b);
  return view.hosts || Array.from({ length: T.hosts }, (_, host) => host);
}

// ---- the address
let keeping = 0, isApplying = false;

function address() {
  const words = new URLSearchParams();
  const put = (name, value, usual) => { if (value !== usual && value !== null) words.set(name, value); };
  put("from", view.from.toFixed(2), (0).toFixed(2));
  put("to", view.to.toFixed(2), T.end.toFixed(2));
  put("call", view.call && nameOf(view.call), null);
  put("side", view.side, 0);
  put("phase", view.phase, null);
  put("hosts", view.hosts && view.hosts.join(","), null);
  put("hide", [...view.hidden].join(","), "");
  for (const name of ["tab", "sort", "filter"]) put(name, view[name], name === "tab" ? "calls" : "");
  put("up", view.up ? "1" : "", "");
  put("ruler", view.ruler && view.ruler.map(moment => moment.toFixed(2)).join(","), null);
  put("mark", view.mark, null);
  put("alone", view.alone, null);
  put("theme", view.theme, "");
  return `#${words}`;
}

/** Keeps what is shown in the address, soon; `isStep` makes a step of its own for the browser's way back. */
function keepAddress(isStep = false) {
  if (isApplying || !T) return;
  clearTimeout(keeping);
  const keep = () => {
    if (location.hash !== address()) history[isStep ? "pushState" : "replaceState"](null, "", address());
  };
  if (isStep) keep();
  else keeping = setTimeout(keep, 200);
}

/** Shows what the address says. */
function applyAddress() {
  const words = new URLSearchParams(location.hash.slice(1));
  const number = name => (words.has(name) ? Number(words.get(name)) : null);
  isApplying = true;
  const asked = words.get("call"), call = asked ? callNamed(asked) : null;
  Object.assign(view, {
    tab: TABS.includes(words.get("tab")) ? words.get("tab") : "calls",
    sort: words.get("sort") || "", up: words.has("up"),
    filter: words.get("filter") || "", hosts: words.has("hosts") ? hostsOf(words.get("hosts")) : null,
    hidden: new Set((words.get("hide") || "").split(",").filter(Boolean)), alone: number("alone") ?? GIVEN_ALONE,
  });
  setTheme(words.get("theme") || "");
  choose(call || null, { phase: number("phase"), side: number("side") ?? 0 });
  const ruler = (words.get("ruler") || "").split(",").map(Number);
  Object.assign(view, { mark: number("mark"), ruler: ruler.length === 2 ? ruler : null });
  if (words.has("from") || words.has("to")) look(number("from") ?? 0, number("to") ?? T.end);
  else if (!call) look(0, T.end);
  if (asked && !call) say(`no call ${asked}: ${spanOfCalls()}`);
  isApplying = false;
  showLegend();
  showTable();
}

/** Which calls there are, as `1,000 calls, 0.1.0 to 7.1.130`. */
function spanOfCalls() {
  const { calls } = T, span = calls.length ? `, ${calls[0].id} to ${calls.at(-1).id}` : "";
  return counted(calls.length, "call") + span;
}

/** Says something in the foot, until something else is chosen. */
function say(text) {
  at("said").textContent = text;
}

// ---- light and dark
const prefersDark = matchMedia("(prefers-color-scheme: dark)");
let isPrinted = false;

function isDark() {
  return !isPrinted && (view.theme ? view.theme === "dark" : prefersDark.matches);
}

function setTheme(theme) {
  view.theme = theme;
  document.documentElement.classList.toggle("dark", isDark());
}

/** The colour of a packet's kind, a sign or a phase. */
function colourOf(table, name) {
  return LOOKS[table][name][isDark() ? "dark" : "light"];
}
