/* What a save has changed in the run: frames that are new, have other bytes, have only moved in time, or have gone. */

/** A place among the frames of a window, which stand by time: its number, its time, and where its bytes begin. */
class FramePlace {
  constructor(content, sorts) {
    Object.assign(this, { content, sorts, number: 0, data: 0, time: content.at + content.time[0] });
  }

  isThere() { return this.number < this.content.sort.length; }

  sort() { return this.sorts[this.content.sort[this.number]]; }

  bytes() { return this.content.data.slice(this.data, this.data + 2 * this.sort()[3]); }

  next() {
    this.data += 2 * this.sort()[3];
    this.time += this.content.time[++this.number];
  }

  /** The frame alone. */
  frame() { return { content: this.content, number: this.number, time: this.time, sort: this.sort(), bytes: this.bytes() }; }
}

const NO_FRAME = { isThere: () => false };

class RunChanges {
  static MOST = 400000;     // of more frames than these it isn't looked for which have only moved

  /** Of two runs, as maps from the starts of their windows to { content, sorts }. */
  constructor(now, before) {
    this.fresh = [];            // frames that the run before didn't have
    this.gone = [];             // and those that it had alone
    this.marks = new Map();     // by the content of a window: by the number of a frame, "new", { was: bytes } or { from: time }
    for (const at of [...new Set([...before.keys(), ...now.keys()])].sort((a, b) => a - b)) {
      const here = now.get(at), there = before.get(at);
      if (!here || !there || here.content !== there.content) this.compare(placeIn(here), placeIn(there));
    }
    if (this.fresh.length + this.gone.length <= RunChanges.MOST) this.pairMoved();
    this.pairChanged();
    for (const frame of this.fresh) this.mark(frame, "new");
  }

  mark({ content, number }, mark) {
    if (!this.marks.has(content)) this.marks.set(content, new Map());
    this.marks.get(content).set(number, mark);
  }

  /** Of what is left, frames of one identifier that both runs have at one time have other bytes. */
  pairChanged() {
    const old = new Map(this.gone.map(frame => [`${frame.time} ${frame.sort[0]}`, frame])), pairs = new Map();
    for (const frame of this.fresh) {
      const before = old.get(`${frame.time} ${frame.sort[0]}`);
      if (before) pairs.set(frame, before);
    }
    const changed = new Set(pairs.values());
    for (const [frame, before] of pairs) this.mark(frame, { was: before.bytes });
    this.fresh = this.fresh.filter(frame => !pairs.has(frame));
    this.gone = this.gone.filter(frame => !changed.has(frame));
  }

  /** Goes through a window of both runs by time. */
  compare(now, old) {
    while (now.isThere() || old.isThere()) {
      const is = !old.isThere() || now.isThere() && now.time <= old.time, was = !now.isThere() || old.isThere() && old.time <= now.time;
      if (is && was) this.atOneTime(now, old);
      else if (is) this.fresh.push(now.frame());
      else this.gone.push(old.frame());
      if (is) now.next();
      if (was) old.next();
    }
  }

  /** Both runs have a frame at one time. SDO with other bytes is looked for elsewhere first: a write more moves all behind it. */
  atOneTime(now, old) {
    const [identifier] = now.sort(), isOfOne = identifier === old.sort()[0];
    if (isOfOne && now.bytes() === old.bytes()) return;
    if (isOfOne && !isOfSdo(identifier)) this.mark(now.frame(), { was: old.bytes() });
    else { this.fresh.push(now.frame()); this.gone.push(old.frame()); }
  }

  /** Frames with the same identifier and bytes in both runs have only moved: each to the nearest, so that none passes another. */
  pairMoved() {
    const old = byWords(this.gone), moved = new Set();
    for (const [words, frames] of byWords(this.fresh))
      for (const [now, before] of nearest(frames, old.get(words) || [])) {
        this.mark(now, { from: before.time });
        moved.add(now).add(before);
      }
    this.fresh = this.fresh.filter(frame => !moved.has(frame));
    this.gone = this.gone.filter(frame => !moved.has(frame));
  }
}

const isOfSdo = identifier => identifier > 0x580 && identifier < 0x680;

const placeIn = window => window ? new FramePlace(window.content, window.sorts) : NO_FRAME;

/** Frames by identifier and bytes. */
function byWords(frames) {
  const found = new Map();
  for (const frame of frames) {
    const words = frame.sort[0] + " " + frame.bytes;
    if (!found.has(words)) found.set(words, []);
    found.get(words).push(frame);
  }
  return found;
}

/** Pairs of two rows of frames that stand by time: each of the shorter row with the nearest of the other that is left. */
function nearest(now, old) {
  if (old.length < now.length) return nearest(old, now).map(([a, b]) => [b, a]);
  const pairs = [];
  let place = 0;
  now.forEach((frame, n) => {
    const last = old.length - now.length + n;
    while (place < last && Math.abs(old[place + 1].time - frame.time) < Math.abs(old[place].time - frame.time)) place++;
    pairs.push([frame, old[place++]]);
  });
  return pairs;
}

/** What a save has changed, in words: 3 gone, 1 changed, 2 new; where nothing else has, what has only moved. */
function changesWords({ gone = 0, changed = 0, fresh = 0, moved = 0 }) {
  const found = [[gone, "gone"], [changed, "changed"], [fresh, "new"]].filter(([count]) => count);
  return (found.length || !moved ? found : [[moved, "moved"]]).map(([count, what]) => `${counted(count)} ${what}`).join(", ");
}
