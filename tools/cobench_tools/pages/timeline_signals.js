/* Signals: the values that PDOs carry, over time as steps, each chosen from a list and drawn in a lane of its own. */

const SIGNAL = 76, COMPACT_SIGNAL = 56, SIGNAL_PAD = 14;
const UNIT = /\s*\[([^\]]+)\]/;       // a unit in the name of an entry

/** The signals that a trace has: what a PDO carries under one label, of one lane. */
function signalsOf(trace) {
  const found = new Map();
  trace.sorts.forEach((sort, number) => {
    if (typeof sort.text === "string" || !sort.text[1]) return;
    let start = 0;
    for (const [label, bits, form] of sort.text[1]) {
      if (bits && !/^000[1-7]h$/.test(label)) addSignal(found, trace, sort, number, { label, bits, form, start });
      start += bits;
    }
  });
  return [...found.values()];
}

function addSignal(found, trace, sort, number, part) {
  const lane = trace.lanes[sort.lane], key = `${lane.key} ${sort.text[0]} ${part.label}`, unit = part.label.match(UNIT);
  if (!found.has(key)) {
    found.set(key, { key, lane: sort.lane, subject: sort.text[0], label: part.label.replace(UNIT, ""),
      planned: lane.planned, unit: unit ? unit[1] : "", isHexadecimal: part.form === "unsigned", realBits: part.form === "real" ? part.bits : 0, parts: new Map() });
  }
  found.get(key).parts.set(number, part);
}

/** The times at which a signal has a value, and the values; with its least and its greatest one. */
function pointsOf(trace, signal) {
  const time = [], value = [];
  for (let frame = 0; frame < trace.count; frame++) {
    const part = signal.parts.get(trace.sort[frame]);
    if (!part) continue;
    time.push(trace.time[frame]);
    value.push(numberAt(trace.bytes(frame), part));
  }
  const finite = value.filter(Number.isFinite);
  return { time, value, least: finite.reduce((a, b) => Math.min(a, b), Infinity), most: finite.reduce((a, b) => Math.max(a, b), -Infinity) };
}

/** The number that a part of a PDO has. */
function numberAt(bytes, { start, bits, form }) {
  const value = littleEndian(bytes) >> BigInt(start) & (1n << BigInt(bits)) - 1n;
  if (form === "real") return realOf(value, bits);
  return Number(form === "signed" ? BigInt.asIntN(bits, value) : form === "bit" ? value & 1n : value);
}

/** The value that a signal has at a moment, null before its first frame. */
function signalAt(signal, time) {
  const place = firstAt(signal.points.time, time + .5) - 1;
  return place < 0 ? null : signal.points.value[place];
}

/** A value of a signal with its unit. */
const withUnit = (value, { realBits, unit }) => (realBits ? realText(value, realBits) : counted(value)) + (unit ? " " + unit : "");

/** The lane of a signal. */
function signalLane(trace, signal, number) {
  return { name: signal.label, title: `${signal.subject}${signal.planned ? ", planned" : ""}`, said: signal.label, key: signal.key, number, signal,
    kinds: [], states: [], flags: [], flagTimes: [], trouble: 0 };
}

/** Draws the values as steps: each holds until the next frame; where one is no finite number, nothing is drawn. */
function drawSignal(pen, view, lane) {
  const { scale, colours } = view, { time, value, least, most } = lane.signal.points, x = scale.x;
  const top = lane.top + SIGNAL_PAD, high = lane.height - 2 * SIGNAL_PAD, span = most - least || 1;
  const y = each => Math.round(top + (most === least ? high / 2 : (most - each) / span * high));
  pen.fillStyle = colours.grid;
  for (const at of most === least ? [y(most)] : [top, top + high]) pen.fillRect(0, Math.round(at), scale.right, 1);
  pen.strokeStyle = pen.fillStyle = colours.pdo;
  pen.lineWidth = 2;
  pen.beginPath();
  const first = Math.max(firstAt(time, scale.from) - 1, 0), end = Math.min(scale.right, x(view.trace.end));
  for (let place = first; place < time.length; place++) {
    const from = Math.max(x(time[place]), 0), to = place + 1 < time.length ? Math.min(x(time[place + 1]), end) : end;
    if (x(time[place]) > scale.right) break;
    if (!Number.isFinite(value[place])) continue;
    if (place === first || !Number.isFinite(value[place - 1])) pen.moveTo(from, y(value[place])); else pen.lineTo(from, y(value[place]));
    pen.lineTo(Math.max(from, to), y(value[place]));
  }
  pen.stroke();
  if (least > most) return;
  for (const [number, at] of most === least ? [[most, y(most) - 8]] : [[most, top - 7], [least, top + high + 7]])
    write(pen, withUnit(number, lane.signal), 4, at, colours.soft, 10);
}

function tellSignal(view, lane, time) {
  const { signal } = lane, value = signalAt(signal, time);
  if (value === null || time > view.trace.end) return null;
  const place = firstAt(signal.points.time, time + .5) - 1, hold = signal.points.time[place];
  return { time, lane: lane.number, colour: "pdo", head: `${shownTime(Math.round(time))} · ${signal.subject}`, words: `${signal.label} = ${withUnit(value, signal)}`,
    values: [`since ${shownTime(hold)}`], code: signal.isHexadecimal && value >= 0 ? hexadecimal(value, 2) + "h" : "" };
}

/** The list from which signals are chosen. */
class SignalList {
  constructor(view) {
    this.view = view;
    this.chosen = new Set();
    this.wanted = element("input", { type: "search", placeholder: "name", "aria-label": "search for a signal" });
    this.items = element("ul", { class: "flags" });
    this.element = popUp("signals", "values over time, chosen from a list", this.wanted, this.items);
    this.element.addEventListener("toggle", () => { if (this.element.open) this.fill(); });
    this.wanted.addEventListener("input", () => this.fill());
  }

  take(trace) {
    this.trace = trace;
    this.all = signalsOf(trace);
    this.element.hidden = !this.all.length;
    if (this.element.open) this.fill();
  }

  /** The lanes of the chosen ones. */
  lanes() {
    return this.all.filter(each => this.chosen.has(each.key)).map((signal, n) => {
      signal.points = signal.points || pointsOf(this.trace, signal);
      return signalLane(this.trace, signal, this.trace.lanes.length + n);
    });
  }

  fill() {
    const wanted = this.wanted.value.trim().toLowerCase();
    const shown = this.all.filter(each => !wanted || `${each.subject} ${each.label}`.toLowerCase().includes(wanted));
    this.items.replaceChildren(...shown.slice(0, FlagList.MOST).map(each => element("li", {}, this.choice(each))));
  }

  choice(signal) {
    const box = element("input", { type: "checkbox" });
    box.checked = this.chosen.has(signal.key);
    box.addEventListener("change", () => this.choose(signal.key, box.checked));
    const said = `${signal.subject}${signal.planned ? ", planned" : ""}`;
    return element("label", { class: "choice" }, box, element("span", {}, element("b", {}, signal.label), ` ${said}${signal.unit ? `, ${signal.unit}` : ""}`));
  }

  choose(key, isChosen) {
    if (isChosen) this.chosen.add(key); else this.chosen.delete(key);
    this.view.search(this.view.bar.search.value);
  }
}
