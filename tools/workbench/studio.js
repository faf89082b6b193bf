// ---- The studio: a text is edited, the server runs it, and the page of a trace shows what comes of it.

const at = id => document.getElementById(id);
const commas = number => number.toLocaleString("en-US");
const counted = (number, word) => `${commas(number)} ${word}${number === 1 ? "" : "s"}`;
const POLL = 150; // milliseconds between two questions how far a run is
const PAUSE = 500; // milliseconds without a key until a run begins by itself

const studio = { kind: "schedule", run: null, isAsked: false, timer: 0, line: null, last: "" };

/** What the server answers; a refusal is an error with its words. */
async function ask(path, body) {
  const options = body === undefined ? {} : {
    method: "POST", headers: { "Content-Type": "application/json" }, body: JSON.stringify(body),
  };
  const answer = await fetch(path, options);
  if (!answer.ok) throw new Error(await answer.text());
  return answer;
}

const askJson = async (path, body) => (await ask(path, body)).json();

function say(words) {
  at("state").textContent = words;
}

/** Marks a line, and says why it was refused; without a reason all marks go. */
function mark(line, why) {
  studio.line = line;
  at("why").hidden = !why;
  at("why").textContent = why ? `${line ? `line ${line}: ` : ""}${why}` : "";
  number();
}

/** The numbers of the lines beside them, that of a refused one marked. */
function number() {
  const count = at("text").value.split("\n").length, box = at("numbers");
  box.replaceChildren(...Array.from({ length: count }, (_, i) => {
    const row = document.createElement("div");
    row.textContent = i + 1;
    row.className = i + 1 === studio.line ? "bad" : "";
    return row;
  }));
  box.scrollTop = at("text").scrollTop;
}

function goToLine(line) {
  const lines = at("text").value.split("\n"), start = lines.slice(0, line - 1).join("\n").length + (line > 1 ? 1 : 0);
  at("text").focus();
  at("text").setSelectionRange(start, start + lines[line - 1].length);
}

/** Begins a run; one that goes on is ended by the server. */
async function begin(kind = studio.kind) {
  clearTimeout(studio.timer);
  studio.last = at("text").value;
  try {
    const { run } = await askJson("begin", { kind, text: studio.last });
    studio.run = run;
    at("end").disabled = false;
    await follow(run, kind);
  } catch (fault) {
    say(fault.message);
  }
}

/** Asks how far a run is until it is over, or another one began. */
async function follow(run, kind) {
  for (;;) {
    const told = await askJson(`run/${run}`);
    if (studio.run !== run) return;
    if (told.state !== "running") {
      at("end").disabled = true;
      await finish(run, kind, told);
      return;
    }
    const far = told.said || `${counted(told.lines, "line")}, tick ${commas(told.tick)}`;
    say(`running: ${far}, ${told.seconds.toFixed(1)} s`);
    await new Promise(go => { setTimeout(go, POLL); });
  }
}

async function finish(run, kind, told) {
  const size = `${counted(told.lines, "line")}, ${told.seconds.toFixed(2)} s`;
  say(told.state === "done" ? `done: ${size}` : `${told.state}: ${told.state === "refused" ? size : told.why}`);
  mark(told.line, told.state === "refused" || told.state === "failed" ? told.why : "");
  if (told.lines === 0) return;
  const text = await (await ask(`output/${run}`)).text();
  if (kind === "experiment") showFigures(curvesAndTable(text));
  else if (kind === "experiment-summary") showFigures([make("pre", {}, text)]);
  else await showTrace(text);
}

function showFigures(parts) {
  at("figures").replaceChildren(...parts);
  at("figures").hidden = false;
}

async function showTrace(text) {
  at("figures").hidden = true;
  await at("view").contentWindow.openText(text);
}

async function end() {
  if (studio.run !== null) await ask(`end/${studio.run}`, {});
}

function onType() {
  mark(null, "");
  clearTimeout(studio.timer);
  if (at("typing").checked) studio.timer = setTimeout(() => at("text").value !== studio.last && begin(), PAUSE);
}

function choose(example) {
  studio.kind = example.kind;
  at("text").value = example.text;
  at("more").hidden = example.kind !== "experiment";
  at("look").disabled = !KINDS.includes("experiment-trace");
  mark(null, "");
  if (at("typing").checked) begin();
}

function listen() {
  at("examples").append(...EXAMPLES.map((example, i) => new Option(`${example.kind}: ${example.name}`, i)));
  at("examples").addEventListener("change", event => choose(EXAMPLES[Number(event.target.value)]));
  at("run").addEventListener("click", () => begin());
  at("summary").addEventListener("click", () => begin("experiment-summary"));
  at("look").addEventListener("click", () => begin("experiment-trace"));
  at("end").addEventListener("click", end);
  at("text").addEventListener("input", onType);
  at("text").addEventListener("scroll", () => { at("numbers").scrollTop = at("text").scrollTop; });
  at("why").addEventListener("click", () => studio.line && goToLine(studio.line));
  at("typing").addEventListener("change", onType);
  addEventListener("keydown", event => {
    if (event.key !== "Enter" || !(event.ctrlKey || event.metaKey)) return;
    event.preventDefault();
    begin();
  });
}

listen();
choose(EXAMPLES[0]);
