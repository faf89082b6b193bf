// ---- Legend, finding, keys, pointer, print.

/** The legend is the filter: each entry shows how a thing is drawn, and a click hides it or shows it again. */
function showLegend() {
  const dashed = look => {
    const dash = look.dash.length ? `stroke-dasharray="${look.dash.join(" ")}"` : "";
    const path = `<path d="M0 4H26" stroke="${look[isDark() ? "dark" : "light"]}" stroke-width="3" ${dash}/>`;
    return make("span", { className: "line-patch", innerHTML: `<svg width="26" height="8">${path}</svg>` });
  };
  const signs = { lost: "×", failed: "■", restart: "┃", idle: "▬" };
  const sign = name => make("span", {
    className: "sign", textContent: signs[name], style: { color: colourOf("signs", name) },
  });
  const entry = (name, picture, words) => make("button", {
    className: view.hidden.has(name) ? "off" : "", ariaPressed: String(!view.hidden.has(name)), data: { name },
    title: "click: hide or show; alt-click: this alone", onclick: event => toggle(name, event.altKey),
  }, picture, words);
  at("legend").replaceChildren(
    ...Object.entries(LOOKS.packets).map(([name, look]) => entry(name, dashed(look), look.words)),
    ...Object.entries(LOOKS.signs).map(([name, look]) => entry(name, sign(name), look.words)),
    entry("calls", make("span", { className: "sign", textContent: "●" }), "call, run, done"),
    entry("records", make("span", { className: "sign", textContent: "●" }), "bury, free, full .."),
    make("span", { id: "shade" }, "0 ", make("span", { className: `shade ${isDark() ? "dark" : ""}` }),
      ` ${commas(T.most)} bytes a tick`),
  );
}

function toggle(name, isAlone) {
  const packets = Object.keys(LOOKS.packets);
  if (isAlone) {
    const isOnly = packets.every(it => view.hidden.has(it) === (it !== name));
    for (const it of packets) view.hidden[isOnly || it === name ? "delete" : "add"](it);
  } else if (!view.hidden.delete(name)) view.hidden.add(name);
  showLegend();
  askDraw();
  keepAddress();
}

function showSums() {
  const { fates } = T, parts = [counted(T.calls.length, "call"), counted(T.packets.length, "packet")];
  const lost = make("b", { className: "lost", textContent: `${commas(fates.lost)} lost` });
  const rest = [`${commas(fates["under way"])} under way at the end`];
  if (T.isNode) rest.push(`${commas(fates.elsewhere)} to hosts elsewhere`);
  at("sums").replaceChildren(`${parts.join(" · ")} · `, lost, ` · ${rest.join(" · ")}`);
}

// ---- finding
function find() {
  const word = at("find").value;
  view.found = word ? T.lines.flatMap((line, i) => (line.includes(word) ? [i] : [])) : [];
  view.hit = -1;
  showHit(1);
}

function showHit(step) {
  const count = view.found.length;
  if (!count) {
    at("hits").textContent = at("find").value ? "no line" : "";
    return;
  }
  view.hit = (view.hit + step + count) % count;
  const line = view.found[view.hit];
  goTo(line);
  at("hits").textContent = `${view.hit + 1} of ${commas(count)}`;
  say(`${placeOf(line)}  ${T.lines[line]}`);
}

// ---- keys: one table for what they do and for what `?` says
const KEYS = [
  [["ArrowLeft"], "←", "earlier", () => move(-0.2)],
  [["ArrowRight"], "→", "later", () => move(0.2)],
  [["+", "=", "ArrowUp"], "+ ↑", "closer", () => zoom(0.5)],
  [["-", "ArrowDown"], "- ↓", "farther", () => zoom(2)],
  [["0", "Home"], "0 Home", "the whole run", () => look(0, T.end)],
  [["j"], "j", "the next row of the list", () => pickNext(1)],
  [["k"], "k", "the previous row of the list", () => pickNext(-1)],
  [["b"], "b", "bytes of the request, or of the response (of each incarnation)", () => flipSide()],
  [["/"], "/", "find a text in the lines", () => at("find").focus()],
  [["n"], "n", "the next line found", () => showHit(1)],
  [["N"], "N", "the previous line found", () => showHit(-1)],
  [["d"], "d", "light or dark", () => flipTheme()],
  [["p"], "p", "print what is in view", () => print()],
  [["Escape"], "Esc", "away: ruler and mark, then the call, then the part in view", () => leave()],
  [["?"], "?", "this table", () => showHelp()],
];
const POINTERS = [
  ["wheel", "zoom at the pointer; with shift, move"],
  ["drag", "move; on the curve above, choose the part in view"],
  ["shift-drag", "a ruler between two moments"],
  ["click", "on an arrow: its call; on a row or a line: what it is about, its place"],
  ["two fingers", "zoom and move"],
];

function flipSide() {
  if (!view.call) return;
  view.side = (view.side + 1) % Math.max(1, messagesOf(view.call).length);
  askDraw();
  keepAddress();
}

function flipTheme() {
  setTheme(isDark() ? "light" : "dark");
  refresh();
  keepAddress();
}

/** All that has a colour, anew. */
function refresh() {
  if (!T) return;
  showLegend();
  if (view.call) showCall(view.call);
  askDraw();
}

function leave() {
  if (view.ruler || view.mark !== null) Object.assign(view, { ruler: null, mark: null, packet: null });
  else if (view.call || view.spell) {
    choose(null, { isStep: true });
    look(0, T.end);
  } else look(0, T.end);
  askDraw();
  keepAddress();
}

function showHelp() {
  const row = (key, words) => make("tr", {}, make("th", {}, key), make("td", {}, words));
  at("help").replaceChildren(make("h2", {}, "Keys and pointer"),
    make("table", {}, ...KEYS.map(([, key, words]) => row(key, words)), ...POINTERS.map(it => row(...it))),
    make("p", {}, "Time goes to the right, a lane is a host. Within a tick a place is an order of lines and no time."),
    make("form", { method: "dialog" }, make("button", { textContent: "close" })));
  at("help").showModal();
}

function onKey(event) {
  if (!T || event.ctrlKey || event.metaKey || at("help").open) return;
  const { target } = event;
  if (event.key === "Enter" && target.matches?.("tr[data-row], th[data-key], .link, .line")) target.click();
  if (target.matches?.("input, select, textarea")) return;
  const key = KEYS.find(([keys]) => keys.includes(event.key));
  if (!key) return;
  key[3]();
  event.preventDefault();
}

// ---- the pointer: a mouse, a pen, fingers
const pointers = new Map(); // those that are down, with where they are
let drag = null;

const placeIn = event => {
  const box = canvas.getBoundingClientRect();
  return [event.clientX - box.left, event.clientY - box.top];
};

function jump(x) {
  const middle = ((x - GUTTER) / plotWidth()) * T.end, span = view.to - view.from;
  look(middle - span / 2, middle + span / 2);
}

function onDown(event) {
  if (!T) return;
  const [x, y] = placeIn(event);
  canvas.setPointerCapture(event.pointerId);
  pointers.set(event.pointerId, x);
  if (pointers.size === 2) beginPinch();
  else {
    const kind = y < MAP ? "map" : event.shiftKey ? "ruler" : "move";
    drag = { kind, x, from: view.from, to: view.to, isMoved: false };
  }
  if (drag.kind === "map") jump(x);
}

function beginPinch() {
  const [a, b] = [...pointers.values()];
  drag = { kind: "pinch", moments: [momentOf(a), momentOf(b)], isMoved: true };
}

function onMove(event) {
  if (!T) return;
  const [x, y] = placeIn(event);
  if (pointers.has(event.pointerId)) pointers.set(event.pointerId, x);
  if (!drag) showTip(x, y);
  else if (drag.kind === "pinch") pinch();
  else dragTo(x);
}

function dragTo(x) {
  drag.isMoved ||= Math.abs(x - drag.x) > 3;
  if (drag.kind === "map") jump(x);
  else if (drag.kind === "ruler") {
    const moment = it => drag.from + ((it - GUTTER) / plotWidth()) * (drag.to - drag.from);
    view.ruler = [moment(drag.x), moment(x)];
    askDraw();
    keepAddress();
  } else if (drag.isMoved) {
    const by = ((drag.x - x) / plotWidth()) * (drag.to - drag.from);
    look(drag.from + by, drag.to + by);
  }
}

/** The moments under two fingers stay under them. */
function pinch() {
  const [a, b] = [...pointers.values()], [first, second] = drag.moments, distance = b - a || 1;
  const span = ((second - first) / distance) * plotWidth();
  if (span <= 0) return;
  const from = first - ((a - GUTTER) / plotWidth()) * span;
  look(from, from + span);
}

function onUp(event) {
  const [x, y] = placeIn(event);
  pointers.delete(event.pointerId);
  if (drag && !drag.isMoved && drag.kind === "move") clickAt(x, y);
  if (pointers.size === 0) drag = null;
}

function clickAt(x, y) {
  const segment = nearest(x, y), call = segment && callNamed(segment.packet.id);
  if (!segment) return;
  if (call && call !== view.call) choose(call, { isStep: true });
  view.mark = segment.packet.at;
  view.packet = segment.packet;
  say(packetWords(segment.packet));
  askDraw();
}

function onWheel(event) {
  if (!T) return;
  event.preventDefault();
  const along = event.deltaX || (event.shiftKey ? event.deltaY : 0);
  if (along) move(along / 1000);
  if (!event.shiftKey && event.deltaY) zoom(Math.exp(event.deltaY / 400), momentOf(placeIn(event)[0]));
}

function showTip(x, y) {
  const words = tipOf(x, y), box = at("tip");
  box.hidden = !words;
  box.textContent = words;
  box.style.left = `${Math.max(0, Math.min(x + 12, stage.width - 430))}px`;
  box.style.top = `${y + 16 > stage.height - 50 ? y - 44 : y + 16}px`;
}

// ---- print: light, without what only a screen needs
const SHEET = "width: 1400px; height: 590px"; // as wide for its height as a sheet that lies

function beforePrint() {
  isPrinted = true;
  at("stage").style.cssText = SHEET;
  setTheme(view.theme);
  if (T) {
    showLegend();
    draw();
  }
}

function afterPrint() {
  isPrinted = false;
  at("stage").style.cssText = "";
  setTheme(view.theme);
  refresh();
}
