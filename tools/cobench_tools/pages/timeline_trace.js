/* A trace as it is drawn: its frames in columns, in the order of time and by rows, its flags, its states. */

/** The first place in sorted times, from `low` on, whose time isn't before `time`. */
function firstAt(times, time, low = 0) {
  let step = 1;
  while (low + step <= times.length && times[low + step - 1] < time) { low += step; step *= 2; }
  let high = Math.min(times.length, low + step - 1);
  while (low < high) {
    const middle = low + high >> 1;
    if (times[middle] < time) low = middle + 1; else high = middle;
  }
  return low;
}

/** Bytes in hexadecimal digits, set apart. */
const spaced = bytes => (bytes.match(/../g) || []).join(" ");

const hexadecimal = (number, digits) => number.toString(16).toUpperCase().padStart(digits, "0");

/** The number that a text of bytes in hexadecimal digits has, the lowest byte first. */
const littleEndian = bytes => BigInt("0x0" + (bytes.match(/../g) || []).reverse().join(""));

/** The number that 32 or 64 bits are by IEEE 754. */
function realOf(value, bits) {
  const view = new DataView(new ArrayBuffer(8));
  view.setBigUint64(0, value);
  return bits === 32 ? view.getFloat32(4) : view.getFloat64(0);
}

/** The shortest decimal number that reads back as a number of so many bits, as `reals.text_of` has it. */
function realText(number, bits) {
  if (Number.isNaN(number)) return "NaN";
  if (!Number.isFinite(number)) return number < 0 ? "-inf" : "inf";
  if (Object.is(number, -0)) return "-0";
  const text = bits === 32 && number ? shortest(number) : number.toExponential(), exponent = Number(text.split("e")[1]);
  if (exponent >= -4 && exponent < 16) return String(Number(text));
  return text.replace(/(e[+-])(\d)$/, (_, sign, digit) => sign + "0" + digit);
}

/** A number of 32 bits with the fewest digits by which it reads back; the next one away from 0 may, where the nearest one doesn't. */
function shortest(number) {
  for (let digits = 0; digits < 8; digits++) {
    const near = number.toExponential(digits), step = Math.sign(number) * 10 ** (Number(near.split("e")[1]) - digits);
    const found = [near, (Number(near) + step).toExponential(digits)].find(each => Math.fround(Number(each)) === number);
    if (found) return found;
  }
  return number.toExponential(8);
}

/** The bits of a frame from `start` on as a value: an unsigned number, a signed one, one bit, or a real number. */
function valueAt(number, start, bits, form) {
  const value = number >> BigInt(start) & (1n << BigInt(bits)) - 1n;
  if (form === "real") return realText(realOf(value, bits), bits);
  if (form === "signed") return BigInt.asIntN(bits, value).toString();
  if (form === "bit") return (value & 1n).toString();
  return hexadecimal(value, 2 * Math.ceil(bits / 8)) + "h";
}

/** What a PDO carries: each label with its value. */
function valuesOf(parts, bytes) {
  const number = littleEndian(bytes);
  let start = 0;
  return parts.map(([label, bits, form]) => {
    const value = bits ? valueAt(number, start, bits, form) : "";
    start += bits;
    return [label, value];
  });
}

class Trace {
  /** `content` is what picture.py makes. */
  constructor(content) {
    this.content = content;
    this.end = content.end;
    this.known = content.known < content.end ? content.known : Infinity;   // behind this moment it is of the trace before
    this.bit = content.bit;
    this.isStuffed = Boolean(content.stuffed);      // the frames have their stuff bits
    this.kinds = content.kinds;
    this.lanes = content.lanes.map(([key, name, title, planned, gone]) => ({
      key, name, title, planned: Boolean(planned), gone: Boolean(gone),
      said: planned ? name + ", planned" : name, flags: [], states: content.states[key] || [] }));
    this.laneOf = new Map(this.lanes.map((lane, number) => [lane.key, number]));
    this.sorts = content.sorts.map(row => this.sortOfRow(row));
    this.takeFrames(content.windows, content.gone || []);
    this.sortIntoRows();
    this.takeFlags(content);
    this.countBy(10000);
  }

  sortOfRow([identifier, kind, lane, size, text, bits]) {
    return { identifier, kind, lane: this.laneOf.get(lane), size, text, bits, slot: (bits || 47 + 8 * size) * this.bit };
  }

  takeFrames(windows, gone) {
    this.count = windows.reduce((sum, each) => sum + each.sort.length, 0);
    this.time = new Float64Array(this.count + gone.length);
    this.sort = new Uint32Array(this.count + gone.length);
    this.fresh = new Set();         // frames that another run doesn't have,
    this.was = new Map();           // of these the bytes that were there at that time,
    this.moved = new Map();         // and of frames that it has at another time, that
    this.isBesidePlan = windows.some(each => each.other);
    this.place = new Uint32Array(this.count + gone.length);
    this.data = windows.map(each => each.data).concat(gone.map(each => each.bytes)).join("");
    let frame = 0, place = 0;
    for (const each of windows) {
      let time = each.at;
      for (const n of each.other || []) this.fresh.add(frame + n);
      for (const [n, mark] of this.content.marks && this.content.marks.get(each) || []) this.takeMark(frame + n, mark);
      for (let i = 0; i < each.sort.length; i++, frame++) {
        this.time[frame] = time += each.time[i];
        this.sort[frame] = each.sort[i];
        this.place[frame] = place;
        place += 2 * this.sorts[each.sort[i]].size;
      }
    }
    this.takeGone(gone, place);
  }

  takeMark(frame, { from, was }) {
    if (from !== undefined) { this.moved.set(frame, from); return; }
    this.fresh.add(frame);
    if (was !== undefined) this.was.set(frame, was);
  }

  /** Frames that have gone with the last save have numbers behind the others', and are neither counted nor in a row. */
  takeGone(gone, place) {
    const known = new Map();
    this.goneSorts = [];
    gone.forEach(({ time, sort, bytes }, n) => {
      if (!known.has(sort)) { known.set(sort, this.sorts.length + this.goneSorts.length); this.goneSorts.push(this.sortOfRow(sort)); }
      this.time[this.count + n] = time;
      this.sort[this.count + n] = known.get(sort);
      this.place[this.count + n] = place;
      place += bytes.length;
    });
  }

  isGone(frame) { return frame >= this.count; }

  /** Whether anything is marked, and how much of each kind. */
  get isMarked() { return this.fresh.size + this.moved.size + this.goneSorts.length > 0; }
  changes() {
    return { gone: this.time.length - this.count, changed: this.was.size, fresh: this.fresh.size - this.was.size, moved: this.moved.size };
  }

  /** All frames by time, those that have gone among them. */
  inOrder() {
    const order = new Uint32Array(this.time.length);
    for (let n = 0, here = 0, gone = this.count; n < order.length; n++) {
      const isHere = here < this.count && (gone >= this.time.length || this.time[here] <= this.time[gone]);
      order[n] = isHere ? here++ : gone++;
    }
    return order;
  }

  /** A row has the frames of one kind in one lane, with their times beside them. */
  sortIntoRows() {
    const kinds = this.kinds.length, rowOf = this.sorts.map(sort => sort.lane * kinds + sort.kind);
    const sizes = new Uint32Array(this.lanes.length * kinds);
    for (let i = 0; i < this.count; i++) sizes[rowOf[this.sort[i]]]++;
    this.rows = Array.from(sizes, size => ({ time: new Float64Array(size), frame: new Uint32Array(size) }));
    sizes.fill(0);
    for (let i = 0; i < this.count; i++) {
      const number = rowOf[this.sort[i]], row = this.rows[number], at = sizes[number]++;
      row.time[at] = this.time[i];
      row.frame[at] = i;
    }
    this.freshRows = this.rowsOf(this.fresh);
    this.movedRows = this.rowsOf(this.moved.keys());
    this.goneRows = this.rowsOf(Array.from({ length: this.time.length - this.count }, (_, n) => this.count + n));
    this.lanes.forEach((lane, n) => { lane.kinds = this.kinds.map((_, kind) => kind).filter(kind => sizes[n * kinds + kind]); });
  }

  /** The rows of some frames by lane, with their times beside them. */
  rowsOf(frames) {
    const rows = this.lanes.map(() => ({ time: [], frame: [] }));
    for (const i of [...frames].sort((a, b) => a - b)) {
      const row = rows[this.sortOf(i).lane];
      row.time.push(this.time[i]);
      row.frame.push(i);
    }
    return rows;
  }

  /** Flags by lane: notes, emergencies and events of the scenario. */
  takeFlags(content) {
    this.flags = content.windows.flatMap(each => each.flags).concat(content.events)
      .map(([time, lane, kind, label, words]) => ({ time, lane: this.laneOf.get(lane), kind, label, words }))
      .sort((a, b) => a.time - b.time);
    for (const flag of this.flags) this.lanes[flag.lane].flags.push(flag);
    for (const lane of this.lanes) {
      lane.flagTimes = lane.flags.map(flag => flag.time);
      lane.trouble = lane.flags.filter(isTrouble).length;
    }
  }

  /** How many frames of each kind there are in each step of time, and for how long they have the bus. */
  countBy(step) {
    this.step = step;
    this.steps = Math.floor(Math.max(this.end, 0) / step) + 1;
    this.counts = this.kinds.map(() => new Uint32Array(this.steps));
    this.slots = this.kinds.map(() => new Float64Array(this.steps));
    for (let i = 0; i < this.count; i++) {
      const sort = this.sorts[this.sort[i]];
      if (this.lanes[sort.lane].planned) continue;
      this.counts[sort.kind][this.stepOf(this.time[i])]++;
      this.fill(this.slots[sort.kind], Math.max(this.time[i] - this.slot(i), 0), this.time[i]);
    }
  }

  stepOf(time) { return Math.min(this.steps - 1, Math.max(0, Math.floor(time / this.step))); }

  /** A frame has the bus from a moment to another. */
  fill(slots, from, to) {
    for (let at = this.stepOf(from); at <= this.stepOf(to); at++)
      slots[at] += Math.max(0, Math.min(to, (at + 1) * this.step) - Math.max(from, at * this.step));
  }

  /** How full the bus is in a step, in per cent, by the kinds that are shown. */
  busyIn(step, shows) { return 100 / this.step * this.slots.reduce((sum, each, kind) => sum + (shows(kind) ? each[step] : 0), 0); }

  /** How many frames there are of a kind; those of planned lanes beside recorded ones count only where that is wanted. */
  countOf(kind, planned = false) {
    return this.lanes.reduce((sum, each, lane) => sum + (planned || !each.planned ? this.rows[lane * this.kinds.length + kind].frame.length : 0), 0);
  }

  /** The frames of a kind in a lane, of those that are looked for. */
  row(lane, kind) { return (this.found || this.rows)[lane * this.kinds.length + kind]; }

  /** Looks for the frames whose identifier or message a text is, among all again where it is none; how many there are. */
  look(text) {
    const wanted = text.trim().toLowerCase(), number = wanted.replace(/^0x|h$/g, "").padStart(3, "0");
    const has = sort => hexadecimal(sort.identifier, 3).toLowerCase() === number, are = wanted ? this.sorts.map(has) : [];
    const says = sort => Boolean(wanted) && (typeof sort.text === "string" ? sort.text : sort.text[0]).toLowerCase().includes(wanted);
    const fits = are.some(Boolean) ? are : this.sorts.map(says);
    this.found = fits.some(Boolean) ? this.rows.map(row => this.part(row, fits)) : null;
    return this.found ? this.found.reduce((sum, row) => sum + row.frame.length, 0) : 0;
  }

  /** The frames of a row whose sort fits. */
  part(row, fits) {
    const frame = row.frame.filter(each => fits[this.sort[each]]);
    return { frame, time: Float64Array.from(frame, each => this.time[each]) };
  }

  /** The first frame from a moment on, of those that are looked for. */
  firstFound(time) {
    const next = (this.found || []).map(row => row.frame[firstAt(row.time, time)]).filter(each => each !== undefined);
    return next.length ? Math.min(...next) : null;
  }
  sortOf(frame) { return this.sorts[this.sort[frame]] || this.goneSorts[this.sort[frame] - this.sorts.length]; }
  /** For how long a frame has the bus. */
  slot(frame) {
    const sort = this.sortOf(frame);
    return this.isStuffed && !sort.bits ? exactBits(sort.identifier, this.bytes(frame)) * this.bit : sort.slot;
  }
  identifier(frame) { return hexadecimal(this.sortOf(frame).identifier, 3); }

  bytes(frame) {
    const place = this.place[frame];
    return this.data.slice(place, place + 2 * this.sortOf(frame).size);
  }

  /** What a frame says: its subject, and of a PDO its values one by one where they are known. */
  said(frame) {
    const text = this.sortOf(frame).text;
    if (typeof text === "string") return { subject: text, values: [] };
    return { subject: text[0], values: text[1] ? this.pairs(frame).map(([label, value]) => value ? `${label}=${value}` : label) : [] };
  }

  /** Of a PDO whose values are known, each label with its value. */
  pairs(frame) {
    const { text } = this.sortOf(frame);
    return typeof text === "string" || !text[1] ? [] : valuesOf(text[1], this.bytes(frame));
  }

  text(frame) {
    const { subject, values } = this.said(frame), text = this.sortOf(frame).text;
    if (typeof text === "string") return text;
    return (subject + ": " + (text[1] ? values.join(" ") : spaced(this.bytes(frame)))).trim();
  }

  isWhole() { return this.known === Infinity; }

  /** Whether what stands at a moment is of the trace before; the events of the scenario never are. */
  isOld(time, kind) { return time > this.known && kind !== "event"; }

  /** The state of a lane's node at a time, or "". */
  stateAt(lane, time) {
    if (this.isOld(time)) return "";
    const found = this.lanes[lane].states.filter(([at]) => at <= time).pop();
    return found ? this.content.stateNames[found[1]] : "";
  }
}

const isTrouble = flag => ["emergency", "failed", "deviation"].includes(flag.kind);

const percent = share => (share < 9.95 ? share.toFixed(1) : Math.round(share)) + " %";
