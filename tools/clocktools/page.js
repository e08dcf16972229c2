"use strict";
const byId = (id) => document.getElementById(id);
const data = JSON.parse(byId("data").textContent);
const svg = byId("waves"), tableBox = byId("table"), bodyRows = byId("records");
const LEFT = 90, RIGHT = 20, TOP = 30, LINE_ROW = 44, TIMER_ROW = 30, CPU_ROW = 64, LABELS = 3;
const LEAST_SPAN = 20, NAMED_EDGES = 200, NAMED_ACCESSES = 400, ROW = 20, MOST_PIXELS = 8e6, AROUND = 20, PRINTED = 500;
const UNITS = [[1e9, "s"], [1e6, "ms"], [1e3, "us"], [1, "ns"]];

// A column of numbers, each told as its difference to the one before where it is a sum.
function numbers(text, count, isSum) {
  const found = new Float64Array(count);
  let value = 0, sign = 1, sum = 0, at = 0;
  for (let place = 0; place <= text.length; place++) {
    const code = text.charCodeAt(place);
    if (code === 45) sign = -1;
    else if (code >= 48 && code <= 57) value = value * 10 + code - 48;
    else if (at < count) {
      sum = isSum ? sum + sign * value : value;
      found[at++] = sum;
      value = 0;
      sign = 1;
    }
  }
  return found;
}

const columns = data.records, texts = columns.texts;
const values = columns.line ? columns.value.split("\n") : [], count = values.length;
const lines = numbers(columns.line, count, true), times = numbers(columns.time, count, true);
const cpus = numbers(columns.cpu, count, false), words = numbers(columns.words, count, false);
const wordsOf = (index) => texts[words[index]][0], toldOf = (index) => texts[words[index]][1], deviceOf = (index) => texts[words[index]][2];
const verdictOf = (index) => {
  const kinds = data.differences[lines[index]];
  return !kinds ? "" : kinds.some((kind) => !data.kinds[kind[0]].known) ? "unexplained" : "known";
};
const differing = Object.keys(data.differences).map(Number).sort((a, b) => a - b);
const unexplained = differing.filter((line) => data.differences[line].some((kind) => !data.kinds[kind[0]].known));
const view = { from: 0, to: data.end };
const filter = { device: "", cpu: "", wire: "" };
let chosen = -1, width = 1000, shownRecords = new Int32Array(0), ofCpu = new Map(), firstRow = 0, rowsInView = 0;

// The first place of a sorted list whose number isn't below a bound.
function placeOf(list, bound, numberOf = (it) => it) {
  let low = 0, high = list.length;
  while (low < high) {
    const middle = (low + high) >> 1;
    if (numberOf(list[middle]) < bound) low = middle + 1;
    else high = middle;
  }
  return low;
}

const timeAt = (index) => times[index];
const xOf = (time) => LEFT + (time - view.from) / (view.to - view.from) * (width - LEFT - RIGHT);
const timeOf = (x) => view.from + (x - LEFT) / (width - LEFT - RIGHT) * (view.to - view.from);
const shown = (time) => (BigInt(data.base) + BigInt(Math.round(time))).toString();
const grouped = (digits) => digits.replace(/\B(?=(\d{3})+$)/g, ",");

// The records that the filters let through, in order, and those of each processor.
function applyFilter() {
  const drives = filter.wire === "" ? null : data.drives[filter.wire], wire = ` ${filter.wire} `;
  const takes = texts.map(([text, , device]) => (filter.device === "" || device === Number(filter.device))
    && (!drives || drives.includes(device) || /^(ack|rose) /.test(text) && `${text} `.includes(wire)));
  const found = new Int32Array(count), own = new Map(data.cpus.map((cpu) => [cpu, []]));
  let end = 0;
  for (let index = 0; index < count; index++) {
    if (!takes[words[index]] || filter.cpu !== "" && cpus[index] !== Number(filter.cpu)) continue;
    found[end++] = index;
    own.get(cpus[index]).push(index);
  }
  shownRecords = found.subarray(0, end);
  ofCpu = own;
}

function add(name, attributes, text, parent = svg) {
  const made = document.createElementNS("http://www.w3.org/2000/svg", name);
  for (const [key, value] of Object.entries(attributes)) made.setAttribute(key, value);
  if (text !== undefined) made.textContent = text;
  parent.append(made);
  return made;
}

// A text beside a place: to the right of it, where there is room.
function addBeside(x, y, text, name) {
  const isRight = x + 7.3 * text.length < width;
  add("text", { class: name, x: isRight ? x + 2 : x - 2, y, "text-anchor": isRight ? "start" : "end" }, text);
}

// Times are marked at round numbers of a unit that fits their distance.
function drawAxis(height) {
  const room = (view.to - view.from) / Math.max(1, Math.floor((width - LEFT) / 130));
  const power = 10 ** Math.floor(Math.log10(Math.max(room, 1)));
  const step = Math.max(1, Math.round([1, 2, 5, 10].map((it) => it * power).find((it) => it >= room)));
  const [size, unit] = UNITS.find(([it]) => step >= it), base = BigInt(data.base);
  const skipped = Number((BigInt(step) - base % BigInt(step)) % BigInt(step));
  for (let time = skipped + Math.ceil((view.from - skipped) / step) * step; time <= view.to; time += step) {
    const at = base + BigInt(Math.round(time)), whole = at / BigInt(size), rest = (at % BigInt(size)).toString();
    const part = rest === "0" ? "" : `.${rest.padStart(String(size).length - 1, "0").replace(/0+$/, "")}`;
    add("line", { class: "grid", x1: xOf(time), x2: xOf(time), y1: 20, y2: height });
    add("text", { class: "tick", x: xOf(time) + 2, y: 14 }, `${grouped(whole.toString())}${part} ${unit}`).dataset.at = at;
  }
}

// A line of interrupt. Several edges at one pixel are one stroke.
function drawLine(line, top) {
  const high = top + 14, low = top + LINE_ROW - 8, yOf = (up) => (up ? high : low);
  const first = placeOf(line.at, view.from), last = placeOf(line.at, view.to + 1);
  let level = first ? line.up[first - 1] : line.first, path = `M${xOf(view.from)} ${yOf(level)}`, pixel = -1;
  let labelEnd = 0;
  add("text", { class: "name", x: 6, y: low }, `line ${line.line}`);
  for (let index = first; index < last; index++) {
    const x = xOf(line.at[index]);
    level = line.up[index];
    if (Math.floor(x) === pixel) {
      if (index + 1 === last || Math.floor(xOf(line.at[index + 1])) !== pixel) path += `V${high}V${low}V${yOf(level)}`;
    } else path += `H${x}V${yOf(level)}`;
    pixel = Math.floor(x);
    if (last - first <= NAMED_EDGES) {
      const name = `line ${line.line} ${level ? "up" : "down"} at ${shown(line.at[index])} ns`;
      const box = add("rect", { class: "edge", x: x - 3, y: high, width: 6, height: low - high });
      box.dataset.at = shown(line.at[index]);
      box.dataset.up = level;
      add("title", {}, name, box);
      if (x > labelEnd) {
        const text = grouped(shown(line.at[index]));
        addBeside(x, high - 3, text, "at");
        labelEnd = x + 8 + 7 * text.length;
      }
    }
  }
  add("path", { class: "wave", d: `${path}H${xOf(view.to)}` });
}

// The messages of a timer: a stroke for each, or for several at one pixel.
function drawTimer(timer, top) {
  const low = top + TIMER_ROW - 8, perPixel = (view.to - view.from) / (width - LEFT - RIGHT);
  add("text", { class: "name", x: 6, y: low }, `timer ${timer.timer}`);
  add("line", { class: "axis", x1: LEFT, x2: width - RIGHT, y1: low, y2: low });
  for (const [first, times, every, to] of timer.bursts) {
    const stride = Math.max(1, Math.floor(perPixel / every));
    const last = Math.min(times, Math.floor((view.to - first) / every) + 1);
    for (let index = Math.max(0, Math.ceil((view.from - first) / every)); index < last; index += stride) {
      const time = first + index * every, x = xOf(time);
      const stroke = add("line", { class: "access message", x1: x, x2: x, y1: low - 12, y2: low });
      stroke.dataset.at = shown(time);
      add("title", {}, `message of timer ${timer.timer} at ${shown(time)} ns to ${to}`, stroke);
    }
  }
}

// The accesses of a processor: a stroke each, what they do where there is room, and a mark where the peer differs.
function drawCpu(cpu, top) {
  const own = ofCpu.get(cpu), first = placeOf(own, view.from, timeAt), last = placeOf(own, view.to + 1, timeAt);
  const base = top + CPU_ROW - 10, ends = Array(LABELS).fill(0), marked = new Map();
  let pixel = -1;
  add("text", { class: "name", x: 6, y: base }, `processor ${cpu}`).setAttribute("textLength", "80");
  add("line", { class: "axis", x1: LEFT, x2: width - RIGHT, y1: base, y2: base });
  for (let place = first; place < last; place++) {
    const index = own[place], x = xOf(times[index]);
    if (Math.floor(x) !== pixel) add("line", { class: "access", x1: x, x2: x, y1: base - 8, y2: base });
    pixel = Math.floor(x);
    const verdict = differing.length ? verdictOf(index) : "";
    if (verdict && marked.get(pixel) !== "unexplained") marked.set(pixel, verdict);
    const row = last - first <= NAMED_ACCESSES ? ends.findIndex((end) => x > end) : -1;
    if (row >= 0) {
      const text = (values[index] ? `${toldOf(index)} = ${values[index]}` : toldOf(index)).slice(0, 40);
      addBeside(x, base - 10 - 13 * row, text, "words");
      ends[row] = x + 8 + 7.3 * text.length;
    }
  }
  for (const [x, verdict] of marked) add("circle", { class: verdict, cx: x + 0.5, cy: base - 4, r: 4 });
}

function draw() {
  width = Math.max(svg.clientWidth || 0, 400);
  svg.replaceChildren();
  const wires = data.lines.filter((line) => filter.wire === "" || line.line === Number(filter.wire));
  const rows = data.cpus.filter((cpu) => filter.cpu === "" || cpu === Number(filter.cpu));
  const timersTop = TOP + LINE_ROW * wires.length, cpusTop = timersTop + TIMER_ROW * data.timers.length;
  const height = cpusTop + CPU_ROW * rows.length;
  svg.setAttribute("height", height);
  drawAxis(height);
  wires.forEach((line, index) => drawLine(line, TOP + LINE_ROW * index));
  data.timers.forEach((timer, index) => drawTimer(timer, timersTop + TIMER_ROW * index));
  rows.forEach((cpu, index) => drawCpu(cpu, cpusTop + CPU_ROW * index));
  if (chosen >= 0) {
    const x = xOf(times[chosen]);
    if (x >= LEFT && x <= width - RIGHT) add("line", { class: "chosen", x1: x, x2: x, y1: 18, y2: height });
  }
  svg.dataset.from = shown(view.from);
  svg.dataset.to = shown(view.to);
  byId("view").textContent = `${grouped(shown(view.from))} to ${grouped(shown(view.to))} ns`;
}

function show(from, to) {
  const span = Math.min(Math.max(to - from, LEAST_SPAN), Math.max(data.end, LEAST_SPAN));
  view.from = Math.min(Math.max(from, 0), Math.max(data.end - span, 0));
  view.to = view.from + span;
  draw();
  listView();
}

function zoom(factor, around = (view.from + view.to) / 2) {
  show(around - (around - view.from) * factor, around + (view.to - around) * factor);
}

// The table has the records of the time that is shown. Its rows are made as they come into sight; where they are more than a
// browser has pixels for, a pixel of the scroll bar is several rows.
function listView() {
  firstRow = placeOf(shownRecords, view.from, timeAt);
  rowsInView = placeOf(shownRecords, view.to + 1, timeAt) - firstRow;
  byId("room").style.height = `${Math.min((rowsInView + 1) * ROW, MOST_PIXELS)}px`;
  byId("count").textContent = `${grouped(String(rowsInView))} of ${grouped(String(count))} records are in this time and these filters`;
  if (chosen >= 0) scrollTo(chosen);
  listRows();
}

const rowsSeen = () => Math.ceil((tableBox.clientHeight || 400) / ROW);
const scrollRange = () => Math.max(1, Math.min((rowsInView + 1) * ROW, MOST_PIXELS) - (tableBox.clientHeight || 400));
const topRow = () => Math.round(tableBox.scrollTop / scrollRange() * Math.max(0, rowsInView + 1 - rowsSeen()));

function scrollTo(index) {
  const row = placeOf(shownRecords, index) - firstRow, seen = rowsSeen(), top = topRow();
  if (row < 0 || row >= rowsInView || row >= top && row < top + seen - 3) return;
  tableBox.scrollTop = Math.max(0, row - Math.floor(seen / 2)) / Math.max(1, rowsInView + 1 - seen) * scrollRange();
}

function cell(row, text, name) {
  const made = document.createElement("td");
  made.textContent = text;
  if (name) made.className = name;
  row.append(made);
  return made;
}

function rowOf(index) {
  const row = document.createElement("tr"), differences = data.differences[lines[index]];
  row.className = `${differing.length ? verdictOf(index) : ""} ${index === chosen ? "chosen" : ""}`.trim();
  row.dataset.line = lines[index];
  const cells = [lines[index], cpus[index], grouped(shown(times[index])), toldOf(index), wordsOf(index), values[index]];
  for (const text of cells) cell(row, text);
  cell(row, differences ? differences[0][1] : "", "peer");
  row.onclick = () => choose(index);
  return row;
}

function listRows(top = topRow(), seen = rowsSeen()) {
  const made = [];
  for (let row = top; row < Math.min(rowsInView, top + seen + 1); row++) made.push(rowOf(shownRecords[firstRow + row]));
  bodyRows.replaceChildren(...made);
  bodyRows.parentElement.style.transform = `translateY(${tableBox.scrollTop}px)`;
}

// The chosen record: what it does, what it was answered, and by which rule the peer's answer differs.
function tellChosen() {
  const told = [`line ${lines[chosen]}, processor ${cpus[chosen]}, ${grouped(shown(times[chosen]))} ns: ${wordsOf(chosen)}`,
    `${data.devices[deviceOf(chosen)]}: ${toldOf(chosen)}${values[chosen] ? ` = ${values[chosen]}` : ""}`];
  for (const [kind, answer] of data.differences[lines[chosen]] || []) {
    const one = data.kinds[kind];
    told.push(`peer ${answer}: ${one.register}, ${one.what}: ${one.known || "unexplained"}\n${one.rule}`);
  }
  byId("details").textContent = told.join("\n");
}

function choose(index) {
  chosen = index;
  const time = times[index], span = view.to - view.from;
  tellChosen();
  if (time < view.from || time > view.to) show(time - span / 2, time + span / 2);
  else {
    draw();
    scrollTo(index);
    listRows();
  }
}

// Shows a record among some of its neighbours.
function zoomTo(index) {
  const place = Math.min(placeOf(shownRecords, index), Math.max(shownRecords.length - 1, 0));
  const near = (it) => times[shownRecords[Math.min(Math.max(it, 0), shownRecords.length - 1)]];
  const span = Math.max(near(place + AROUND) - near(place - AROUND), LEAST_SPAN) / 2;
  chosen = index;
  tellChosen();
  show(times[index] - span, times[index] + span);
}

// The record on a line of the trace, or the first one after it.
function find(line) {
  const index = placeOf(lines, line);
  if (index < count) zoomTo(index);
  byId("told").textContent = index === count ? `no record is on line ${line} or after it`
    : lines[index] === line ? data.told : `line ${line} is no record; the next one is on line ${lines[index]}`;
}

function difference(among, step) {
  const line = chosen < 0 ? 0 : lines[chosen];
  const place = step > 0 ? placeOf(among, line + 1) : placeOf(among, line) - 1;
  if (place >= 0 && place < among.length) zoomTo(placeOf(lines, among[place]));
}

function neighbour(step) {
  const place = placeOf(shownRecords, Math.max(chosen, 0)) + (chosen < 0 ? 0 : step);
  if (shownRecords.length) choose(shownRecords[Math.min(Math.max(place, 0), shownRecords.length - 1)]);
}

function fromHash() {
  const asked = new URLSearchParams(location.hash.slice(1)), base = Number(data.base);
  if (asked.has("from") && asked.has("to")) show(Number(asked.get("from")) - base, Number(asked.get("to")) - base);
  if (asked.has("line")) find(Number(asked.get("line")));
}

function tellSummary() {
  const list = byId("summary").querySelector("ul"), base = Number(data.base), kinds = [0, 0];
  for (const kind of data.kinds) kinds[kind.known ? 1 : 0]++;
  const peer = `the peer's answers: ${kinds[0]} kinds of difference are unexplained, in ${unexplained.length} records; ${kinds[1]} are known`;
  const rows = data.kinds.length ? [...data.summary, { text: peer }] : data.summary;
  for (const row of rows) {
    const item = document.createElement("li");
    list.append(item);
    item.textContent = row.text;
    if (row.line === undefined && row.from === undefined) continue;
    const link = document.createElement("a");
    link.textContent = row.line === undefined ? "show" : `line ${row.line}`;
    link.setAttribute("role", "button");
    link.tabIndex = 0;
    const margin = (Number(row.to) - Number(row.from)) / 4;
    link.onclick = () => (row.line === undefined ? show(Number(row.from) - base - margin, Number(row.to) - base + margin) : find(row.line));
    item.append(" ", link);
  }
}

function options(id, rows) {
  for (const [value, text] of rows) byId(id).append(new Option(text, value));
  byId(id).onchange = (event) => {
    filter[id] = event.target.value;
    applyFilter();
    draw();
    listView();
  };
}

byId("title").textContent = document.title = data.title;
byId("told").textContent = data.told;
byId("whole").onclick = () => show(0, data.end);
byId("in").onclick = () => zoom(0.5);
byId("out").onclick = () => zoom(2);
byId("next").onclick = () => difference(differing, 1);
byId("before").onclick = () => difference(differing, -1);
byId("unexplained-next").onclick = () => difference(unexplained, 1);
byId("unexplained-before").onclick = () => difference(unexplained, -1);
byId("line").onchange = (event) => find(Number(event.target.value));
byId("next").disabled = byId("before").disabled = !differing.length;
byId("unexplained-next").disabled = byId("unexplained-before").disabled = !unexplained.length;
options("device", data.devices.map((name, number) => [number, name]).filter(([number]) => texts.some((text) => text[2] === number)));
options("cpu", data.cpus.map((cpu) => [cpu, cpu]));
options("wire", data.lines.map(({ line }) => [line, line]));
tableBox.addEventListener("scroll", () => listRows());
svg.addEventListener("wheel", (event) => {
  event.preventDefault();
  zoom(event.deltaY < 0 ? 0.8 : 1.25, timeOf(event.clientX - svg.getBoundingClientRect().left));
}, { passive: false });
svg.addEventListener("pointerdown", (down) => {
  const start = { ...view }, perPixel = (view.to - view.from) / (width - LEFT - RIGHT);
  const move = (event) => {
    const moved = (down.clientX - event.clientX) * perPixel;
    show(start.from + moved, start.to + moved);
  };
  const up = (event) => {
    removeEventListener("pointermove", move);
    removeEventListener("pointerup", up);
    if (Math.abs(event.clientX - down.clientX) > 3 || !shownRecords.length) return;
    const place = placeOf(shownRecords, timeOf(down.clientX - svg.getBoundingClientRect().left), timeAt);
    choose(shownRecords[Math.min(place, shownRecords.length - 1)]);
  };
  addEventListener("pointermove", move);
  addEventListener("pointerup", up);
});
addEventListener("keydown", (event) => {
  if (/^(INPUT|SELECT)$/.test(event.target.tagName || "") || event.ctrlKey || event.metaKey || event.altKey) return;
  const step = (view.to - view.from) / 5;
  const keys = {
    "+": () => zoom(0.5), "-": () => zoom(2), "0": () => show(0, data.end),
    ArrowLeft: () => show(view.from - step, view.to - step), ArrowRight: () => show(view.from + step, view.to + step),
    ArrowUp: () => neighbour(-1), ArrowDown: () => neighbour(1),
    n: () => difference(unexplained, 1), p: () => difference(unexplained, -1),
    N: () => difference(differing, 1), P: () => difference(differing, -1),
    "/": () => byId("line").focus(), "?": () => { byId("legend").open = !byId("legend").open; },
  };
  if (keys[event.key]) {
    event.preventDefault();
    keys[event.key]();
  }
});
addEventListener("beforeprint", () => listRows(0, PRINTED));
addEventListener("afterprint", () => listRows());
addEventListener("resize", () => { draw(); listRows(); });
addEventListener("hashchange", fromHash);
tellSummary();
applyFilter();
show(0, data.end);
fromHash();
