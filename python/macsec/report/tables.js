// ---- Tables

const MOST_ROWS = 200, MOST_GAPS = 20, INTERVALS = 20;

function cell(it) {
  return typeof it === "number" ? el("td", { class: "number" }, count(it)) : el("td", {}, it);
}

function table(caption, heads, lines) {
  const body = lines.slice(0, MOST_ROWS).map((line) => el("tr", {}, ...line.map(cell)));
  const kind = (n) => (lines.length && typeof lines[0][n] === "number" ? { class: "number" } : {});
  const head = el("tr", {}, ...heads.map((it, n) => el("th", { scope: "col", ...kind(n) }, it)));
  const rest = lines.length - MOST_ROWS, note = rest > 0 ? el("p", {}, `${many(rest, "more row")} not shown.`) : null;
  const whole = el("table", {}, el("caption", {}, caption), el("thead", {}, head), el("tbody", {}, ...body));
  return el("div", { class: "scrolled", tabindex: "0", role: "region", "aria-label": caption }, whole, note);
}

// A long table is folded.
function folded(made, length, what) {
  return length > 4 ? el("details", {}, el("summary", {}, `Table of ${many(length, what)}`), made) : made;
}

function section(id, title, ...children) {
  return el("section", { id, "aria-labelledby": `${id}-head` }, el("h2", { id: `${id}-head` }, title), ...children);
}

// A button that shows some records alone, and all again.
function filter(name, records, text = "Show") {
  const attributes = { type: "button", "aria-pressed": "false", "data-filter": name };
  const toggle = () => (view.onlyName === name ? showOnly("", null) : showOnly(name, records));
  return el("button", { ...attributes, onclick: toggle }, text);
}

// The picture of a panel as a table: what it shows, in intervals.
function intervals(panel) {
  const length = (view.to - view.from) / INTERVALS, found = [];
  const at = (time) => found[Math.min(INTERVALS - 1, Math.floor((time - view.from) / length))];
  for (let n = 0; n < INTERVALS; n++) {
    found.push({ kinds: KINDS.map(() => 0), low: Infinity, high: -Infinity, first: null, last: null });
  }
  for (const row of panel.own) {
    for (const n of row.shown.list.subarray(0, row.shown.count)) {
      if (row.only !== null && !row.only[n]) continue;
      const it = at(row.times[n]), number = row.numbers[n] + row.shift;
      it.kinds[row.kinds[n]]++;
      it.kinds[TWICE] += row.again !== null && row.again[n] ? 1 : 0;
      it.first = it.first === null ? row.records[n] : it.first;
      it.last = row.records[n];
      it.low = Math.min(it.low, number);
      it.high = Math.max(it.high, number);
    }
    eachGap(row, (gap) => { at(gap.time).kinds[LOST] += sizeOf(gap); });
  }
  const used = KINDS.map((_, n) => n).filter((n) => found.some((it) => it.kinds[n]));
  const number = (it) => (Number.isFinite(it) ? hex(panel.base + BigInt(it)) : "");
  const lines = found.map((it, n) => [
    `from ${seconds(view.from + n * length, length / 10)}`, it.first === null ? "" : span(it.first, it.last),
    number(it.low), number(it.high), ...used.map((kind) => it.kinds[kind]),
  ]);
  const heads = ["Time", "Records", "Lowest PN", "Highest PN", ...used.map((n) => KINDS[n].name)];
  return table(`${panel.name}, ${INTERVALS} intervals of ${seconds(length)}`, heads, lines);
}

// ---- Sections

const listed = (counts) => Object.entries(counts).map(([name, n]) => `${name} ${count(n)}`).join(", ");

function twiceSection(twice) {
  const lines = twice.map((it) => {
    const number = hex(it.pn), of = it.earlier;
    const records = ranges(it.records) + (of ? `, and ${of.record} of ${of.capture}, ${of["first record at"]}` : "");
    return [filter(`the IV of PN ${number}`, it.records), records, it.key, it.sci, number];
  });
  const text = "Whoever has two frames with one IV under one key can read and forge frames under it. Stop using the " +
    "key. A sender began again at a used packet number, or two senders have one SCI or SSCI.";
  const heads = ["Draw", "Records", "Key", "SCI", "PN"];
  const made = table("Frames with other octets and one IV under one key", heads, lines);
  const all = filter("IVs used twice", [...twice, more].flatMap((it) => it.records), "Show all of them");
  return section("twice", "IVs used twice", el("p", { class: "bad" }, text), el("p", {}, all),
    folded(made, lines.length, "IV"));
}

function causeSection(groups) {
  const lines = groups.map((it, place) => {
    const causes = it.causes.map((each) => `${each.cause}: ${each.line ? `line ${each.line}: ` : ""}${each.text}`);
    const texts = [...(causes.length ? causes : ["no cause is known"]), ...(it.note ? [it.note] : [])];
    const whose = it.sci ? `${it.sci} AN ${it.an}` : `EtherType ${it.ethertype}`;
    const name = `cause ${place + 1}, ${it.verdict}, ${it.causes.map((each) => each.cause).join(" and ") || "unknown"}`;
    return [filter(name, it.records), it.verdict, whose, it.records.length + (it.more || 0),
      el("div", {}, ...texts.map((text) => el("p", {}, text))), ranges(it.records)];
  });
  const heads = ["Draw", "Verdict", "SCI or EtherType", "Frames", "Cause", "Records"];
  const text = "Show draws the frames of a row, and all others pale.";
  const made = table("The frames with each cause", heads, lines);
  return section("causes", "Why frames are not accepted", el("p", {}, text), made);
}

function gapSection(gaps) {
  const lines = gaps.slice(0, MOST_GAPS).map((it) => {
    const [from, to] = [it.from, it.to].map((number) => hex(it.row.base + BigInt(number)));
    return [sizeOf(it), `${it.row.sci} AN ${it.row.an}`, from, to, seconds(it.time), utc(it.time)];
  });
  const rest = gaps.slice(MOST_GAPS), numbers = many(sum(rest.map(sizeOf)), "number");
  const left = rest.length ? el("p", {}, `${many(rest.length, "more gap")} of ${numbers}.`) : null;
  const heads = ["Numbers", "Association", "From PN", "To PN", "Noticed after", "Time"];
  const text = "Such a frame was lost before the capture, or not sent here.";
  return section("losses", "Packet numbers that are missing", el("p", {}, text),
    table("The largest gaps", heads, lines), left);
}

function associationSection(associations) {
  const lines = associations.map((it) => [it.sci, it.an, it.key || "", it.frames, `0x${it.first}`, `0x${it.last}`,
    it.missing, it.repeated, listed(it.verdicts), listed(it.flags)]);
  const heads = ["SCI", "AN", "Key", "Frames", "First PN", "Last PN", "Missing", "Repeated", "Verdicts", "SecTAG"];
  const caption = "An SCI in parentheses is a source address: the tag names nobody";
  return section("associations", "Associations", table(caption, heads, lines));
}

function eventSection() {
  const lines = data.events.map((it) => [recordName(it.record), seconds(it.time), utc(it.time), it.sci, it.an, it.key]);
  const heads = ["From record", "After", "Time", "SCI", "AN", "Key"];
  return section("keys", "Keys and rekeys", table("From which record on an association uses a key", heads, lines));
}

function counterSection() {
  const lines = Object.entries(data.counters).flatMap(([whose, counters]) =>
    Object.entries(counters).filter(([, n]) => n).map(([name, n]) => [whose, name, n]));
  const caption = `What the receiver of ${data.config} has counted, without those that are 0`;
  return section("counters", "Counters of the receiver", table(caption, ["Channel", "Counter", "Value"], lines));
}

function otherSection() {
  const lines = objects("ethertype").map((it) =>
    [`no SecTAG, EtherType ${it.ethertype}`, sum(Object.values(it.verdicts)), listed(it.verdicts)]);
  for (const it of objects("not seen")) {
    lines.push([`not seen: ${it["not seen"]}`, it.records.length, `record ${ranges(it.records)}`]);
  }
  const made = table("Records that are not drawn", ["What", "Records", "Which"], lines);
  return lines.length ? section("others", "Other records", made) : null;
}

function panelSection() {
  const senders = new Map();
  for (const row of rows) {
    if (!senders.has(row.sci)) senders.set(row.sci, new Map());
    const own = senders.get(row.sci);
    own.set(row.an, [...(own.get(row.an) || []), row]);
  }
  const figures = [...senders].flatMap(([sci, own]) => [el("h3", {}, `Sender ${sci}`),
    ...[...own].sort((a, b) => a[0] - b[0]).map(([an, them]) => panelOf(sci, an, them))]);
  const band = data.receiver && data.receiver.replay ? ` The band is the replay window of ${data.config}.` : "";
  const keys = "Keys in a picture: + and \u2212 zoom, arrows move, 0 shows all, n and p go to the next or previous " +
    "frame that was not accepted.";
  return section("panels", "Packet numbers over time",
    el("p", {}, `A mark is a frame.${band} Drag to zoom, double-click to show all. ${keys}`), ...figures);
}

// ---- The page

function findings(twice, associations, gaps) {
  const total = (name) => sum(associations.map((it) => it[name])), frames = total("frames"), missing = total("missing");
  const list = [];
  const of = (kind) => sum(associations.flatMap((it) => kind.verdicts.map((name) => it.verdicts[name] || 0)));
  const add = (grade, where, text) => list.push(el("li", { class: grade }, el("a", { href: `#${where}` }, text)));
  const ivs = twice.length + (more.more["iv used twice"] || 0);
  if (ivs) add("bad", "twice", `${many(ivs, "IV")} used twice under one key: stop using the key`);
  const kinds = KINDS.filter((it, n) => n !== OK && of(it)).map((it) => `${it.name} ${count(of(it))}`);
  const rest = frames - of(KINDS[OK]), all = many(frames, "protected frame");
  if (rest) add("warn", "causes", `${count(rest)} of ${all} not accepted as new and valid: ${kinds.join(", ")}`);
  for (const it of values("seen")) {
    const kept = `${many(it.kept, "frame")} of ${many(it.captures, "capture")}`;
    add("note", "text", `Ledger of used IVs: ${kept}, ${count(it.new)} new, ${count(it.forgotten)} forgotten`);
  }
  for (const it of values("refused")) add("warn", "text", `CONFIG ${it.message}`);
  if (missing) add("warn", "losses", `${many(missing, "packet number")} missing, in ${many(gaps.length, "gap")}`);
  const [ask, ...asks] = data.asks, left = data["not drawn"];
  if (ask) add("warn", "asks", `Ask for ${ask.split("\n")[0]}${asks.length ? ", and more" : ""}`);
  const undrawn = `${many(left.associations, "association")} with ${many(left.frames, "frame")}`;
  if (left.frames) add("note", "associations", `Not drawn: ${undrawn}`);
  const lists = Object.entries(more.more).map(([name, n]) => `${count(n)} of ${name}`);
  if (lists.length) add("note", "text", `Not listed: ${lists.join(", ")}`);
  const good = frames ? `${all}: all are valid, and no packet number is missing` : "No frame is protected";
  if (!list.length) add("good", "lanes", good);
  return el("ul", { class: "findings" }, ...list);
}

function toolbar() {
  const range = el("span", { class: "range" }), only = el("span", { class: "only" });
  const button = (text, title, onclick) => el("button", { type: "button", title, "aria-label": title, onclick }, text);
  const all = button("Show all", "Show all frames", () => showOnly("", null));
  const buttons = [button("Zoom to them", "Zoom to these frames", zoomToOnly), all];
  redraws.push(() => {
    const step = (view.to - view.from) / 100;
    range.textContent = `${seconds(view.from, step)} to ${seconds(view.to, step)}`;
    only.replaceChildren(...(view.onlyName ? [`Only ${view.onlyName} `, ...buttons] : []));
    for (const it of document.querySelectorAll("[data-filter]")) {
      it.setAttribute("aria-pressed", it.dataset.filter === view.onlyName);
    }
  });
  return el("div", { class: "toolbar", role: "toolbar", "aria-label": "What is shown" },
    button("\u2212", "Zoom out", () => zoom(2)), button("+", "Zoom in", () => zoom(0.5)),
    button("\u25c0", "Earlier", () => pan(-0.5)), button("\u25b6", "Later", () => pan(0.5)),
    button("All", "Show all times", showAll), range, only);
}

function zoomToOnly() {
  let low = Infinity, high = -Infinity;
  for (const row of rows) {
    row.times.forEach((time, n) => {
      if (!row.only[n]) return;
      low = Math.min(low, time);
      high = Math.max(high, time);
    });
  }
  if (low <= high) zoomTo(low - (high - low) / 10 - 1e4, high + (high - low) / 10 + 1e4);
}

// What of the frames can be asked for quickly.
function prepare(twice, groups) {
  const ivs = [...twice, more].flatMap((it) => it.records);
  for (const it of KINDS) it.total = 0;
  for (const it of groups) {
    const text = it.causes.map((each) => each.cause).join(", ") || "no cause is known";
    for (const record of it.records) view.causes.set(record, text);
  }
  let first = Infinity, last = -Infinity;
  for (const row of rows) {
    if (ivs.length) row.twice = flagsOf(row, ivs);
    row.times.forEach((it, n) => {
      KINDS[row.kinds[n]].total++;
      first = Math.min(first, it);
      last = Math.max(last, it);
    });
    KINDS[LOST].total += sum(row.gaps.map(sizeOf));
    KINDS[TWICE].total += row.twice ? sum(row.twice) : 0;
  }
  view.first = rows.length ? first : 0;
  view.last = rows.length && last > first ? last : view.first + 1e6;
  [view.from, view.to] = [view.first, view.last];
}

function heading(names) {
  const records = many(sum(data.captures.map((it) => it.records)), "record"), it = data.receiver;
  const window = it && (it.replay ? `replay window ${count(it.window)}` : "no replay protection");
  const how = it ? `judged as ${data.config} does: validate ${it.mode}, ${window}`
    : "opened by keys; for the verdicts of a receiver give its CONFIG by --config";
  const text = ` \u2013 ${records}, ${seconds(view.last - view.first)} from ${utc(view.first)}; ${how}`;
  return el("header", {}, el("h1", {}, "MACsec report"), el("p", {}, el("strong", {}, names), text));
}

async function start() {
  rows = await Promise.all(data.rows.map(rowOf));
  await unpackObjects();
  const twice = values("iv used twice"), groups = values("unopened"), associations = values("association");
  const gaps = rows.flatMap((row) => row.gaps.map((it) => ({ ...it, row }))).sort((a, b) => sizeOf(b) - sizeOf(a));
  prepare(twice, groups);
  const names = data.captures.map((it) => it.name).join(", "), page = document.getElementById("report");
  const asks = el("ul", { class: "asks" }, ...data.asks.map((it) => el("li", {}, it)));
  document.title = `MACsec report: ${names}`;
  page.replaceChildren(...[heading(names), findings(twice, associations, gaps),
    twice.length ? twiceSection(twice) : null,
    toolbar(), section("lanes", "All frames over time", lanes()), panelSection(),
    groups.length ? causeSection(groups) : null,
    data.asks.length ? section("asks", "What to ask for", asks) : null, gaps.length ? gapSection(gaps) : null,
    associationSection(associations), eventSection(), data.receiver ? counterSection() : null, otherSection(),
    el("footer", {}, `macsec-report ${data.version}. Records count from 0, frames in Wireshark from 1. Times are ` +
      "those of the capture. This page has no key, and no data of a frame.")].filter(Boolean));
  new ResizeObserver(redraw).observe(page);
  addEventListener("beforeprint", () => {
    for (const it of document.querySelectorAll("#twice details")) it.open = true;
  });
  redraws.push(() => { document.documentElement.dataset.state = "drawn"; });
  redraw();
}

start().catch((why) => {
  const text = `This browser cannot draw the report (${why}). The text below says the same.`;
  document.getElementById("report").replaceChildren(el("p", {}, text));
});
