// ---- What is shown: a range of times, without some kinds, and of all frames only those of a cause.

const view = { from: 0, to: 1, first: 0, last: 1, hidden: new Set(), onlyName: "", causes: new Map() };
const redraws = [];
let rows = [], isAsked = false;

function redraw() {
  if (isAsked) return;
  isAsked = true;
  requestAnimationFrame(() => {
    isAsked = false;
    rows.forEach(show);
    for (const it of redraws) it();
  });
}

function zoomTo(from, to) {
  const width = Math.min(Math.max(to - from, 1000), view.last - view.first);
  view.from = Math.max(view.first, Math.min(from, view.last - width));
  view.to = view.from + width;
  redraw();
}
const showAll = () => zoomTo(view.first, view.last);
const pan = (part) => zoomTo(view.from + part * (view.to - view.from), view.to + part * (view.to - view.from));
const zoom = (factor, middle = (view.from + view.to) / 2) => {
  const half = ((view.to - view.from) * factor) / 2;
  zoomTo(middle - half, middle + half);
};

function showOnly(name, records) {
  view.onlyName = name;
  for (const row of rows) row.only = records && flagsOf(row, records);
  redraw();
}

// Which frames of a row some records are.
function flagsOf(row, records) {
  const flags = new Uint8Array(row.records.length);
  for (const record of records) {
    const n = firstFrom(row.records, record);
    if (row.records[n] === record) flags[n] = 1;
  }
  return flags;
}

// The first index of numbers in order at which they are not below this one.
function firstFrom(numbers, least) {
  let a = 0, b = numbers.length;
  while (a < b) {
    const middle = (a + b) >> 1;
    if (numbers[middle] < least) a = middle + 1;
    else b = middle;
  }
  return a;
}

// Lists the frames of a row that are shown. A page can have a million: what looks at each one is a loop over arrays.
function show(row) {
  const { times, kinds, shown, isSorted } = row, { from, to, hidden } = view, { list } = shown;
  const isHidden = Uint8Array.from(KINDS, (_, kind) => (hidden.has(kind) ? 1 : 0));
  row.again = isHidden[TWICE] ? null : row.twice;
  shown.count = 0;
  for (let n = isSorted ? firstFrom(times, from) : 0; n < times.length; n++) {
    const time = times[n];
    if (time > to && isSorted) return;
    const isShown = !isHidden[kinds[n]] || (row.again !== null && row.again[n]);
    if (isShown && time >= from && time <= to) list[shown.count++] = n;
  }
}

function eachGap(row, visit) {
  if (view.hidden.has(LOST)) return;
  for (const it of row.gaps) if (it.time >= view.from && it.time <= view.to) visit(it);
}

// ---- Axes. A mark hides others in its cell, a square of CELL pixels.

const CELL = 3, LEFT = 92, RIGHT = 12, TOP = 14, PLOT = 200, STRIP = 14, AXIS = 20, LANE = 22;
const xOf = (time, width) => LEFT + ((time - view.from) / (view.to - view.from)) * (width - LEFT - RIGHT);

// The least of some steps, each a factor times a power of the base, that divides a length into at most so many parts.
function stepOf(length, most, base, factors) {
  const power = base ** Math.floor(Math.log(length / most) / Math.log(base));
  return power * (factors.find((it) => length / (power * it) <= most) || base);
}

function timeAxis(width, top, x = (time) => xOf(time, width)) {
  const step = stepOf(view.to - view.from, Math.max(2, (width - LEFT) / 110), 10, [1, 2, 5]);
  const axis = svg("g", { class: "axis" });
  for (let it = Math.ceil(view.from / step) * step; it <= view.to; it += step) {
    const at = x(it).toFixed(1), anchor = at > width - 40 ? "end" : at < 20 ? "start" : "middle";
    axis.append(svg("path", { d: `M${at},0V${top + 4}` }));
    axis.append(svg("text", { x: at, y: top + 16, "text-anchor": anchor }, seconds(it, step)));
  }
  return axis;
}

function numberAxis(panel, low, high) {
  const step = Math.max(1, stepOf(high - low, 5, 16, [1, 2, 4, 8])), axis = svg("g", { class: "axis" });
  const offset = Number(panel.base % BigInt(step));
  for (let it = Math.ceil((low + offset) / step) * step - offset; it <= high; it += step) {
    const number = panel.base + BigInt(it), y = panel.yOf(it);
    if (number < 0n || y < 6 || y > PLOT - 4) continue;
    axis.append(svg("path", { d: `M${LEFT},${y.toFixed(1)}H${panel.width - RIGHT}` }));
    axis.append(svg("text", { x: LEFT - 8, y: (y + 4).toFixed(1), "text-anchor": "end" }, hex(number)));
  }
  axis.append(svg("text", { x: LEFT - 8, y: PLOT + STRIP - 3, "text-anchor": "end" }, "missing"));
  return axis;
}

// ---- The lanes: when frames of each kind come.

function mark(kind) {
  const path = svg("path", { class: `k-${kind.id}`, d: kind.path(8, 8, Math.max(kind.size, 4)) });
  return svg("svg", { class: "mark", viewBox: "0 0 16 16", "aria-hidden": "true" }, path);
}

function lanes() {
  const list = el("div", { class: "lanes" }), drawn = [];
  KINDS.forEach((kind, at) => {
    if (!kind.total) return;
    const box = el("input", { type: "checkbox", onchange: () => {
      view.hidden[box.checked ? "delete" : "add"](at);
      redraw();
    } });
    box.checked = true;
    const picture = svg("svg", { class: "lane", role: "img", "aria-label": `${kind.name} over time` });
    draggable(picture, 0, 0);
    const label = el("label", {}, box, mark(kind), ` ${kind.name}`);
    list.append(label, el("span", { class: "number" }, count(kind.total)), picture);
    drawn.push({ at, picture });
  });
  const axis = svg("svg", { class: "times", "aria-hidden": "true" });
  list.append(el("span"), el("span"), axis);
  redraws.push(() => drawLanes(drawn, axis));
  return list;
}

function drawLanes(drawn, axis) {
  const width = axis.clientWidth || 600, columns = Math.ceil(width / CELL) + 1, { from, to } = view;
  const bins = new Float64Array(KINDS.length * columns), scale = (columns - 1) / (to - from);
  for (const row of rows) {
    const { times, kinds, only, again, shown: { list, count } } = row;
    for (let i = 0; i < count; i++) {
      const n = list[i], at = Math.floor((times[n] - from) * scale);
      if (only !== null && !only[n]) continue;
      bins[kinds[n] * columns + at]++;
      if (again !== null && again[n]) bins[TWICE * columns + at]++;
    }
    eachGap(row, (it) => { bins[LOST * columns + Math.floor((it.time - from) * scale)] += sizeOf(it); });
  }
  for (const { at, picture } of drawn) {
    const own = bins.subarray(at * columns, (at + 1) * columns), bars = [];
    const most = own.reduce((a, b) => Math.max(a, b));
    own.forEach((it, x) => it && bars.push(barOf(x * CELL, LANE, LANE, it, most)));
    const title = `${KINDS[at].name}: at most ${count(most)} in ${seconds(1 / scale)}`;
    picture.setAttribute("viewBox", `0 0 ${width} ${LANE}`);
    const path = svg("path", { class: `k-${KINDS[at].id} bars`, d: bars.join("") });
    picture.replaceChildren(svg("title", {}, title), path);
  }
  axis.setAttribute("viewBox", `0 0 ${width} ${AXIS}`);
  axis.replaceChildren(timeAxis(width, 0, (time) => (time - view.from) * (width / (view.to - view.from))));
}

// A bar, by the logarithm of its count.
function barOf(x, bottom, height, it, most) {
  const tall = Math.max(4, (height * Math.log1p(it)) / Math.log1p(most)).toFixed(1);
  return `M${x},${bottom}v-${tall}h${CELL}v${tall}z`;
}

// ---- A panel: the packet numbers of an association, under one key or several.

function panelOf(sci, an, own) {
  const name = `SCI ${sci} AN ${an}`;
  const picture = svg("svg", { class: "plot", role: "img", "aria-label": `Packet numbers of ${name}` });
  const said = el("p", { class: "said", "aria-live": "polite" }), rest = el("div");
  const details = el("details", { ontoggle: redraw }, el("summary", {}, "Table of this picture"), rest);
  const base = own.map((it) => it.base).reduce((a, b) => (a < b ? a : b));
  const panel = { sci, an, own, name, picture, said, rest, details, base, selected: null };
  for (const it of own) it.shift = Number(it.base - base);
  const keys = own.map((it) => it.key).filter(Boolean).join(", ");
  const frames = many(sum(own.map((it) => it.records.length)), "frame");
  picture.addEventListener("pointermove", (it) => pointAt(panel, it));
  draggable(picture, LEFT, RIGHT);
  redraws.push(() => drawPanel(panel));
  return el("figure", { tabindex: "0", "aria-label": name, onkeydown: (it) => onKey(it, panel) },
    el("figcaption", {}, el("h4", {}, `AN ${an}: ${frames}`, el("small", {}, keys))), picture, said, details);
}

// The lowest and the highest number that are shown, with some space.
function extentOf(panel) {
  let low = Infinity, high = -Infinity;
  for (const { numbers, shift, shown: { list, count } } of panel.own) {
    for (let i = 0; i < count; i++) {
      const it = numbers[list[i]] + shift;
      if (it < low) low = it;
      if (it > high) high = it;
    }
  }
  if (low > high) [low, high] = [0, 1];
  const more = Math.max(1, (high - low) * 0.05);
  return [low - more, high + more];
}

function drawPanel(panel) {
  const width = Math.max(320, panel.picture.clientWidth || 900), [low, high] = extentOf(panel);
  panel.width = width;
  panel.yOf = (number) => PLOT - ((number - low) / (high - low)) * (PLOT - TOP);
  const [pale, ...marks] = marksOf(panel, low, high);
  panel.picture.setAttribute("viewBox", `0 0 ${width} ${PLOT + STRIP + AXIS}`);
  panel.picture.replaceChildren(numberAxis(panel, low, high), timeAxis(width, PLOT + STRIP), ...windowsOf(panel),
    stripOf(panel), ...rekeysOf(panel), ...pathsOf(marks, pale));
  sayAll(panel, marks);
  if (panel.selected) panel.picture.append(ringOf(panel));
  if (panel.details.open) panel.rest.replaceChildren(intervals(panel));
}

// The frames by the cells that they are in: where the first one of each cell is, and how many there are. The first list
// is of those that are pale, then come those of each kind.
function marksOf(panel, low, high) {
  const { from, to } = view, across = (panel.width - LEFT - RIGHT) / (to - from), up = (PLOT - TOP) / (high - low);
  const down = Math.ceil(PLOT / CELL) + 1, size = down * (Math.ceil(panel.width / CELL) + 1);
  const lists = [[], ...KINDS.map(() => [])], cells = new Int32Array(size * lists.length);
  for (const { times, numbers, kinds, only, again, shift, shown: { list, count } } of panel.own) {
    for (let i = 0; i < count; i++) {
      const n = list[i], x = LEFT + (times[n] - from) * across, y = PLOT - (numbers[n] + shift - low) * up;
      const of = only !== null && !only[n] ? 0 : 1 + (again !== null && again[n] ? TWICE : kinds[n]);
      const at = of * size + Math.floor(x / CELL) * down + Math.floor(y / CELL);
      if (!cells[at]++) lists[of].push([x, y, at]);
    }
  }
  return lists.map((list) => list.map(([x, y, at]) => [x, y, cells[at]]));
}

// The replay window as a band: from the lowest acceptable number to the next one that is expected.
function windowsOf(panel) {
  if (!data.receiver || !data.receiver.replay) return [];
  return panel.own.filter((row) => row.window.length).map((row) => {
    const last = row.window[row.window.length - 1], points = [...row.window, [view.last, ...last.slice(1)]];
    const steps = (at) => points.flatMap((it, n) => [[it[0], points[Math.max(0, n - 1)][at]], [it[0], it[at]]]);
    const corners = [...steps(2), ...steps(1).reverse()].map(([time, number]) => {
      const x = Math.max(LEFT, Math.min(panel.width - RIGHT, xOf(time, panel.width)));
      return `${x.toFixed(1)},${Math.max(0, Math.min(PLOT, panel.yOf(number + row.shift))).toFixed(1)}`;
    });
    return svg("path", { class: "window", d: `M${corners.join("L")}z` }, svg("title", {}, "replay window"));
  });
}

// How many packet numbers are missing, below the plot.
function stripOf(panel) {
  const bins = new Map();
  for (const row of panel.own) {
    eachGap(row, (it) => {
      const x = Math.floor(xOf(it.time, panel.width) / CELL);
      bins.set(x, (bins.get(x) || 0) + sizeOf(it));
    });
  }
  const most = Math.max(1, ...bins.values());
  const bars = [...bins].map(([x, it]) => barOf(x * CELL, PLOT + STRIP, STRIP - 2, it, most));
  const lines = `M${LEFT},0V${PLOT + STRIP}H${panel.width - RIGHT}M${LEFT},${PLOT}H${panel.width - RIGHT}`;
  return svg("g", {}, svg("path", { class: "frame", d: lines }), svg("path", { class: "k-lost", d: bars.join("") }));
}

function rekeysOf(panel) {
  const [, ...later] = data.events.filter((it) => it.sci === panel.sci);
  let free = 0;
  return later.filter((it) => it.time >= view.from && it.time <= view.to).flatMap((it) => {
    const x = xOf(it.time, panel.width), text = `AN ${it.an} ${it.key}`, long = 7 * text.length + 8;
    const line = svg("path", { class: "rekey", d: `M${x.toFixed(1)},0V${PLOT}` }, svg("title", {}, text));
    const from = x + long > panel.width ? x - long : x;
    if (from < free) return [line];
    free = from + long;
    const place = { class: "rekey", x: x === from ? x + 4 : x - 4, y: 10, "text-anchor": x === from ? "start" : "end" };
    return [line, svg("text", place, text)];
  });
}

// The marks of each kind, the gravest on top; many are smaller, few are larger.
function pathsOf(marks, pale) {
  const dots = pale.map(([x, y]) => square(Number(x.toFixed(1)), Number(y.toFixed(1)), 1)).join("");
  const paths = KINDS.map((kind, at) => {
    const cells = marks[at], size = kind.size * (cells.length > 150 ? 0.7 : cells.length < 50 ? 1.3 : 1);
    const d = cells.map(([x, y]) => kind.path(Number(x.toFixed(1)), Number(y.toFixed(1)), size)).join("");
    return svg("path", { class: `k-${kind.id}`, d, "data-marks": cells.length });
  });
  return [svg("path", { class: "pale", d: dots }), ...paths.reverse()];
}

function ringOf(panel) {
  const { row, n } = panel.selected, y = panel.yOf(row.numbers[n] + row.shift);
  return svg("circle", { class: "ring", cx: xOf(row.times[n], panel.width).toFixed(1), cy: y.toFixed(1), r: 9 });
}

function sayAll(panel, marks) {
  const counts = marks.flatMap((cells) => cells.map((it) => it[2]));
  const most = counts.reduce((a, b) => Math.max(a, b), 0);
  const hides = most > 1 ? `; a mark stands for up to ${many(most, "frame")}, zoom in to see each` : "";
  panel.said.textContent = `${many(sum(counts), "frame")} as ${many(counts.length, "mark")}${hides}`;
}

// ---- A frame that is pointed at, or chosen by a key.

// The frame that is nearest to a point, and how many share its mark.
function nearest(panel, x, y) {
  let best = null, near = 0, least = 14 ** 2;
  const inside = (time) => Math.abs(xOf(time, panel.width) - x) <= 14;
  for (const row of panel.own) {
    const { times, numbers, only, shift, shown: { list, count } } = row;
    for (let i = 0; i < count; i++) {
      const n = list[i];
      if (!inside(times[n])) continue;
      const across = xOf(times[n], panel.width) - x, down = panel.yOf(numbers[n] + shift) - y;
      const far = across * across + down * down;
      if (far < CELL * CELL) near++;
      if (far > least || (only !== null && !only[n])) continue;
      least = far;
      best = { row, n };
    }
  }
  return [best, near];
}

let isPointed = false;
function pointAt(panel, event) {
  if (isPointed || !panel.width) return;
  isPointed = true;
  requestAnimationFrame(() => {
    isPointed = false;
    const box = panel.picture.getBoundingClientRect(), scale = panel.width / box.width;
    const [found, near] = nearest(panel, (event.clientX - box.left) * scale, (event.clientY - box.top) * scale);
    if (found) select(panel, found, near);
  });
}

function select(panel, found, near) {
  const { row, n } = found, record = row.records[n], time = row.times[n], why = view.causes.get(record);
  panel.selected = found;
  for (const it of panel.picture.querySelectorAll(".ring")) it.remove();
  panel.picture.append(ringOf(panel));
  const number = hex(row.base + BigInt(row.numbers[n])), verdict = data.verdicts[row.verdicts[n]];
  const parts = [`record ${recordName(record)}`, seconds(time), utc(time), `PN ${number}`, verdict];
  if (why) parts.push(why);
  if (row.twice && row.twice[n]) parts.push("IV USED TWICE");
  if (near > 1) parts.push(`${many(near - 1, "more frame")} here`);
  panel.said.textContent = parts.join(", ");
}

// Goes to the next frame that was not accepted, or is of the chosen cause; or to the one before.
function step(panel, way) {
  const isBad = (row, n) => row.kinds[n] !== OK || (row.twice && row.twice[n]);
  const is = (row, n) => (row.only ? row.only[n] : isBad(row, n));
  const now = panel.selected ? panel.selected.row.records[panel.selected.n] : -1;
  let found = null, best = way * Infinity;
  for (const row of panel.own) {
    row.records.forEach((record, n) => {
      if (way * (record - now) <= 0 || way * (record - best) >= 0 || !is(row, n)) return;
      best = record;
      found = { row, n };
    });
  }
  if (!found) return;
  const time = found.row.times[found.n], half = (view.to - view.from) / 2;
  panel.selected = found;
  if (time < view.from || time > view.to) zoomTo(time - half, time + half);
  requestAnimationFrame(() => select(panel, found, 1));
}

const zoomAt = (panel, factor) => zoom(factor, panel.selected ? panel.selected.row.times[panel.selected.n] : undefined);
const KEYS = {
  "+": (panel) => zoomAt(panel, 0.5), "=": (panel) => zoomAt(panel, 0.5), "-": (panel) => zoomAt(panel, 2), 0: showAll,
  ArrowLeft: () => pan(-0.25), ArrowRight: () => pan(0.25), n: (panel) => step(panel, 1), p: (panel) => step(panel, -1),
};
function onKey(event, panel) {
  const isOther = event.ctrlKey || event.metaKey || event.altKey || event.target !== event.currentTarget;
  if (isOther || !(event.key in KEYS)) return;
  event.preventDefault();
  KEYS[event.key](panel);
}

// What is shown next is the range that is dragged, and all after a double click.
function draggable(picture, left, right) {
  let begun = null;
  const timeAt = (event) => {
    const box = picture.getBoundingClientRect(), scale = (picture.viewBox.baseVal.width || box.width) / box.width;
    const part = ((event.clientX - box.left) * scale - left) / (box.width * scale - left - right);
    return view.from + Math.max(0, Math.min(1, part)) * (view.to - view.from);
  };
  picture.addEventListener("pointerdown", (it) => { begun = { time: timeAt(it), x: it.clientX }; });
  picture.addEventListener("pointerup", (it) => {
    const time = timeAt(it);
    if (begun && Math.abs(it.clientX - begun.x) > 6) zoomTo(Math.min(begun.time, time), Math.max(begun.time, time));
    begun = null;
  });
  picture.addEventListener("dblclick", showAll);
}
