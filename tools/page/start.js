// ---- Beginning: a trace from the page itself, from a file, or from the page around this one.

/** Shows a trace, given in pieces of text. */
async function open(pieces, length) {
  at("said").textContent = "";
  at("progress").hidden = false;
  try {
    const start = performance.now(), read = await readTrace(pieces, count => {
      at("progress").value = length ? count / length : 0;
    });
    T = read;
    T.milliseconds = performance.now() - start;
  } catch (fault) {
    showFault(fault);
    return false;
  } finally {
    at("progress").hidden = true;
  }
  document.body.classList.add("open");
  Object.assign(view, { call: null, spell: null, mark: null, packet: null, ruler: null, found: [], hit: -1 });
  showSums();
  showLegend();
  applyAddress();
  return true;
}

/** A text that is no trace is said to be none; what was shown before stays. */
function showFault(fault) {
  say(fault.message);
  at("welcome").textContent = `This is no trace that can be shown: ${fault.message}.`;
}

/** Shows a trace's text. */
function openText(text) {
  return open(piecesOf(text), text.length);
}

function openFile(file) {
  if (!file) return;
  history.replaceState(null, "", "#");
  open(piecesOfFile(file), file.size);
}

function onHosts(event) {
  const word = event.target.value.trim(), hosts = word ? hostsOf(word) : null;
  if (word && !hosts) {
    say(`\`${word}\` names no hosts: there are 0 to ${T.hosts - 1}, as 0-3,7`);
    return;
  }
  view.hosts = hosts;
  if (hosts && view.call) choose(null);
  askDraw();
  keepAddress();
}

function onAlone(event) {
  const ticks = Number(event.target.value);
  view.alone = event.target.value.trim() && Number.isFinite(ticks) && ticks >= 0 ? ticks : null;
  view.sort = view.alone === null ? "" : "slow";
  showTable();
  if (view.call) showCall(view.call);
  keepAddress();
}

const on = (id, event, act, options) => at(id).addEventListener(event, act, options);

function listenToHeader() {
  on("file", "change", event => openFile(event.target.files[0]));
  on("hosts", "change", event => T && onHosts(event));
  on("find", "keydown", event => {
    if (event.key === "Enter" && T) find();
    if (event.key === "Enter" || event.key === "Escape") event.target.blur();
    event.stopPropagation();
  });
  on("whole", "click", () => T && (choose(null, { isStep: true }), look(0, T.end)));
  on("theme", "click", flipTheme);
  on("print", "click", () => print());
  on("keys", "click", showHelp);
}

function listenToList() {
  on("alone", "change", event => T && onAlone(event));
  on("filter", "input", event => {
    if (!T) return;
    view.filter = event.target.value;
    rows = sortedRows();
    at("list").scrollTop = 0;
    showRows();
    keepAddress();
  });
  on("list", "scroll", () => requestAnimationFrame(() => T && showRows()));
  on("list", "click", ({ target }) => {
    const key = target.dataset.key, row = target.closest("tr")?.dataset.row;
    if (key) sortBy(key);
    else if (row !== undefined) pick(rows[Number(row)]);
  });
  on("details", "click", event => openDetail(event.target));
}

function listenToCanvas() {
  on("canvas", "pointerdown", onDown);
  on("canvas", "pointermove", onMove);
  on("canvas", "pointerup", onUp);
  on("canvas", "pointercancel", onUp);
  on("canvas", "pointerleave", () => { at("tip").hidden = true; });
  on("canvas", "wheel", onWheel, { passive: false });
}

function listenToWindow() {
  const follow = () => T && location.hash !== address() && applyAddress();
  addEventListener("hashchange", follow);
  addEventListener("popstate", follow);
  addEventListener("keydown", onKey);
  addEventListener("resize", () => {
    askDraw();
    if (T) showRows();
  });
  addEventListener("beforeprint", beforePrint);
  addEventListener("afterprint", afterPrint);
  addEventListener("dragover", event => event.preventDefault());
  addEventListener("drop", event => {
    event.preventDefault();
    openFile(event.dataTransfer.files[0]);
  });
  prefersDark.addEventListener("change", () => {
    setTheme(view.theme);
    refresh();
  });
}

setTheme(new URLSearchParams(location.hash.slice(1)).get("theme") || "");
listenToHeader();
listenToList();
listenToCanvas();
listenToWindow();
const given = at("trace").textContent;
if (given.trim()) openText(given.trimStart());
