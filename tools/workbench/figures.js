// ---- The figures of an experiment: slowdown by length, as curves and as a table.

const WIDE = 900, TALL = 330, LEFT = 60, RIGHT = 20, TOP = 30, BOTTOM = 60; // pixels
// Ranks with their lines: they differ by more than their hue.
const RANKS = [["p50", "#0072b2", ""], ["p99", "#d55e00", "7 3"], ["p999", "#009e73", "2 3"]];

/** An element with properties and children. */
function make(tag, properties = {}, ...children) {
  const element = Object.assign(document.createElement(tag), properties);
  element.append(...children);
  return element;
}

/** An element of a picture, with attributes. */
function draw(tag, attributes, ...children) {
  const element = document.createElementNS("http://www.w3.org/2000/svg", tag);
  for (const [name, value] of Object.entries(attributes)) element.setAttribute(name, value);
  element.append(...children);
  return element;
}

/** The rows of a table of values between commas, by the names of its head; lines of a `#` say the experiment again. */
function rowsOf(text) {
  const [head = "", ...lines] = text.split("\n").filter(line => line && !line.startsWith("#"));
  const names = head.split(",");
  return { names, rows: lines.map(line => Object.fromEntries(line.split(",").map((value, i) => [names[i], value]))) };
}

/** Of several seeds the median at each range of lengths. */
function medianOf(rows, name) {
  const values = rows.map(row => Number(row[name] || NaN)).filter(Number.isFinite).sort((a, b) => a - b);
  return values.length ? values[values.length >> 1] : null;
}

/** A range of lengths with the median of each rank; the last row of a seed, of all lengths, is left out. */
function pointsOf(rows) {
  const ranges = new Map();
  for (const row of rows) ranges.set(`${row.from} ${row.to}`, [...(ranges.get(`${row.from} ${row.to}`) || []), row]);
  const all = [...ranges.values()].map(group => ({
    to: Number(group[0].to), ...Object.fromEntries(RANKS.map(([name]) => [name, medianOf(group, name)])),
  }));
  return all.length > 1 ? all.slice(0, -1) : all;
}

function curvesAndTable(text) {
  const { names, rows } = rowsOf(text), points = pointsOf(rows);
  const cells = (tag, values) => make("tr", {}, ...values.map(value => make(tag, {}, value || "-")));
  const table = make("table", {}, cells("th", names), ...rows.map(row => cells("td", names.map(name => row[name]))));
  return points.length > 1 ? [curves(points), table] : [table];
}

/** Slowdown (upwards, each line ten times the one below) by parts of the calls, from the shortest to the longest. */
function curves(points) {
  const most = Math.max(10, ...points.flatMap(point => RANKS.map(([name]) => point[name] ?? 1)));
  const tens = Math.ceil(Math.log10(most)), high = TALL - TOP - BOTTOM;
  const xOf = i => LEFT + (i * (WIDE - LEFT - RIGHT)) / (points.length - 1);
  const yOf = value => TOP + high - (Math.log10(Math.max(1, value)) / tens) * high;
  const rules = Array.from({ length: tens + 1 }, (_, k) => [
    draw("line", { class: "rule", x1: LEFT, x2: WIDE - RIGHT, y1: yOf(10 ** k), y2: yOf(10 ** k) }),
    draw("text", { x: LEFT - 8, y: yOf(10 ** k) + 4, "text-anchor": "end" }, String(10 ** k)),
  ]).flat();
  const below = TALL - BOTTOM + 18, middle = { "text-anchor": "middle" };
  const lengths = points.map((point, i) => draw("text", { x: xOf(i), y: below, ...middle }, commas(point.to)));
  const lines = RANKS.map(([name, colour, dash]) => draw("polyline", {
    fill: "none", stroke: colour, "stroke-width": 2, "stroke-dasharray": dash,
    points: points.flatMap((point, i) => (point[name] === null ? [] : [`${xOf(i)},${yOf(point[name])}`])).join(" "),
  }));
  const key = RANKS.map(([name, colour, dash], i) => draw("g", {},
    draw("path", {
      d: `M${LEFT + 110 * i} 14h34`, stroke: colour, "stroke-width": 2, "stroke-dasharray": dash,
    }),
    draw("text", { x: LEFT + 110 * i + 40, y: 18 }, name === "p999" ? "p99.9" : name)));
  const title = draw("text", { x: WIDE / 2, y: TALL - 14, ...middle }, "slowdown, by bytes of the request: up to");
  return draw("svg", { viewBox: `0 0 ${WIDE} ${TALL}`, role: "img" }, ...rules, ...lengths, ...lines, ...key, title);
}
