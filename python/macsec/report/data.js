// Draws a report of macsec-report from the JSON in its page. What the data say becomes text, never HTML.
"use strict";

const data = JSON.parse(document.getElementById("data").textContent);

// ---- The kinds of verdicts, the gravest first. Each has a shape of its own, a path around a point.

const circle = (x, y, r) => `M${x - r},${y}a${r},${r} 0 1 0 ${2 * r},0a${r},${r} 0 1 0 ${-2 * r},0`;
const cross = (x, y, r) => `M${x - r},${y - r}l${2 * r},${2 * r}m0,${-2 * r}l${-2 * r},${2 * r}`;
const diamond = (x, y, r) => `M${x},${y - r}l${r},${r}l${-r},${r}l${-r},${-r}z`;
const triangle = (x, y, r) => `M${x - r},${y - r}h${2 * r}l${-r},${2 * r}z`;
const square = (x, y, r) => `M${x - r},${y - r}h${2 * r}v${2 * r}h${-2 * r}z`;
const plus = (x, y, r) => `M${x - r},${y}h${2 * r}m${-r},${-r}v${2 * r}`;
const bar = (x, y, r) => `M${x - r / 2},${y - r}h${r}v${2 * r}h${-r}z`;
const star = (x, y, r) =>
  `M${x},${y - r}l${0.3 * r},${0.7 * r}h${0.7 * r}l${-0.55 * r},${0.5 * r}l${0.2 * r},${0.7 * r}` +
  `l${-0.65 * r},${-0.45 * r}l${-0.65 * r},${0.45 * r}l${0.2 * r},${-0.7 * r}l${-0.55 * r},${-0.5 * r}h${0.7 * r}z`;

// Without a receiver's keys a wrong key and a wrong ICV are alike.
const INVALID = data.receiver ? "ICV is wrong" : "No key opens it";
const KINDS = [
  { id: "twice", name: "IV used twice", verdicts: [], path: star, size: 7 },
  { id: "invalid", name: INVALID, verdicts: ["NotValid", "Invalid"], path: cross, size: 4 },
  { id: "tag", name: "SecTAG is bad", verdicts: ["BadTag", "Reserved"], path: diamond, size: 4.5 },
  { id: "late", name: "Late or repeated", verdicts: ["Late", "Delayed", "EarlierRun"], path: triangle, size: 4 },
  { id: "nosa", name: "No key or association", verdicts: ["NoSAError", "NoSA"], path: square, size: 3 },
  { id: "unchecked", name: "ICV not checked", verdicts: ["Unchecked"], path: circle, size: 3 },
  { id: "other", name: "Another verdict", verdicts: [], path: plus, size: 4 },
  { id: "lost", name: "Numbers missing", verdicts: [], path: bar, size: 4 },
  { id: "ok", name: "Valid", verdicts: ["OK"], path: circle, size: 2 },
];
const [TWICE, OTHER, LOST, OK] = ["twice", "other", "lost", "ok"].map((id) => KINDS.findIndex((it) => it.id === id));
const KIND_OF = data.verdicts.map((name) => {
  const found = KINDS.findIndex((it) => it.verdicts.includes(name));
  return found < 0 ? OTHER : found;
});

// ---- Numbers

// The numbers of a list. A packed one has their signed differences, first all lowest octets and so on, compressed.
async function numbersOf(list) {
  if (Array.isArray(list)) return Float64Array.from(list);
  const text = atob(list.packed), octets = new Uint8Array(text.length), count = list.count;
  for (let n = 0; n < text.length; n++) octets[n] = text.charCodeAt(n);
  const stream = new Blob([octets]).stream().pipeThrough(new DecompressionStream("deflate"));
  const planes = new Uint8Array(await new Response(stream).arrayBuffer()), found = new Float64Array(count);
  for (let n = 0, sum = 0; n < count; n++) {
    let at = planes.length - count + n, it = (planes[at] << 24) >> 24;
    while ((at -= count) >= 0) it = it * 256 + planes[at];
    sum += it;
    found[n] = sum;
  }
  return found;
}

// The gaps between the packet numbers that a row has, each with the time when it was noticed.
function gapsOf(numbers, times) {
  const gaps = [];
  let low = numbers[0], high = numbers[0];
  for (let n = 1; n < numbers.length; n++) {
    const it = numbers[n], time = times[n];
    if (it > high) {
      if (it > high + 1) gaps.push({ from: high + 1, to: it - 1, time });
      high = it;
    } else if (it < low) {
      if (it < low - 1) gaps.unshift({ from: it + 1, to: low - 1, time });
      low = it;
    } else {
      close(gaps, it);
    }
  }
  return gaps;
}

// Takes a number that came late out of its gap.
function close(gaps, number) {
  let a = 0, b = gaps.length;
  while (a < b) {
    const middle = (a + b) >> 1;
    if (gaps[middle].to < number) a = middle + 1;
    else b = middle;
  }
  const gap = gaps[a];
  if (!gap || number < gap.from) return;
  const rest = [{ ...gap, to: number - 1 }, { ...gap, from: number + 1 }];
  gaps.splice(a, 1, ...rest.filter((it) => it.from <= it.to));
}

const sizeOf = (gap) => gap.to - gap.from + 1;
const sum = (numbers) => numbers.reduce((a, b) => a + b, 0);

async function rowOf(row) {
  const lists = [row.records, row.times, row.numbers, row.verdicts].map(numbersOf);
  const [records, times, numbers, verdicts] = await Promise.all(lists);
  const isSorted = times.every((it, n) => !n || it >= times[n - 1]), base = BigInt("0x" + row.base);
  const kinds = new Uint8Array(verdicts.map((it) => KIND_OF[it])), gaps = gapsOf(numbers, times);
  const shown = { list: new Int32Array(times.length), count: 0 };
  return { ...row, records, times, numbers, verdicts, kinds, isSorted, base, gaps, shown, twice: null, only: null };
}

// ---- What the kit says of the capture: the objects of `macsec-why --json`.

const objects = (kind) => data.objects.filter((it) => kind in it);
const values = (kind) => objects(kind).map((it) => it[kind]);
const more = objects("more")[0] || { more: {}, records: [] };

async function unpackObjects() {
  for (const it of data.objects) {
    const of = it.unopened || it["iv used twice"] || it;
    if (of.records) of.records = Array.from(await numbersOf(of.records));
  }
}

// ---- Texts

const START = BigInt(data.start), MOST_RANGES = 8;
const count = (n) => String(n).replace(/\B(?=(\d{3})+$)/g, ",");
const many = (n, what) => `${count(n)} ${what}${n === 1 ? "" : "s"}`;
const hex = (n) => "0x" + n.toString(16);

// Nanoseconds as seconds, with the digits that steps of so many nanoseconds need.
function seconds(time, step = 1e3) {
  return `${(time / 1e9).toFixed(Math.max(0, Math.min(9, Math.ceil(9 - Math.log10(step)))))} s`;
}

function utc(time) {
  const whole = START + BigInt(Math.round(time)), date = new Date(Number(whole / 1000000n)).toISOString();
  const micros = String(whole % 1000000000n).padStart(9, "0").slice(0, 6);
  return `${date.slice(0, 10)} ${date.slice(11, 19)}.${micros} UTC`;
}

// A record by its number; of several captures by the capture and its number there.
function recordName(record) {
  let before = 0;
  for (const it of data.captures.length > 1 ? data.captures : []) {
    if (record < before + it.records) return `${it.name} ${record - before}`;
    before += it.records;
  }
  return String(record);
}

function span(a, b) {
  return a === b ? recordName(a) : `${recordName(a)}\u2013${recordName(b)}`;
}

function ranges(records) {
  const found = [];
  for (const it of records) {
    const last = found[found.length - 1];
    if (last && it === last[1] + 1) last[1] = it;
    else found.push([it, it]);
  }
  const rest = found.length - MOST_RANGES;
  const shown = found.slice(0, MOST_RANGES).map(([a, b]) => span(a, b)).join(", ");
  return rest > 0 ? `${shown} and ${many(rest, "more range")}` : shown;
}

// ---- Elements

function made(element, attributes, children) {
  for (const [name, value] of Object.entries(attributes)) {
    if (name.startsWith("on")) element.addEventListener(name.slice(2), value);
    else element.setAttribute(name, value);
  }
  element.append(...children.filter((it) => it !== null));
  return element;
}
const SVG = "http://www.w3.org/2000/svg";
const el = (name, attributes = {}, ...children) => made(document.createElement(name), attributes, children);
const svg = (name, attributes = {}, ...children) => made(document.createElementNS(SVG, name), attributes, children);
