/* The lanes and their rows: which are shown, and where. */

const AXIS = 28;                      // height of the axis
const FLAGS = 17, PAD = 5;            // room for flags above the rows of a lane, and round the rows
const COMPACT_FLAGS = 13, COMPACT_ROW = 14, COMPACT_PAD = 2;
const MOST_FULL = 14;                 // more lanes than these have one row each

class Lanes {
  constructor() { this.shown = []; this.compact = false; this.height = 0; }

  /**
   * Takes the lanes of a trace whose name or number has the text that is looked for; where none has, those with frames
   * of that identifier or message. Behind them stand those of signals. Gives how many frames were found so.
   */
  take(trace, wanted, signals = []) {
    const text = wanted.trim().toLowerCase(), all = trace.lanes.map((lane, number) => ({ ...lane, number }));
    const fits = lane => !text || lane.name.toLowerCase().includes(text) || lane.title.toLowerCase().endsWith(" " + text);
    const frames = trace.look(all.some(fits) ? "" : text), has = lane => lane.kinds.some(kind => trace.row(lane.number, kind).frame.length);
    this.shown = all.filter(frames ? has : fits).concat(signals);
    this.compact = this.shown.length > MOST_FULL;
    return frames;
  }

  /** Places the lanes in a room of so many pixels: rows are as high as there is room for, within limits. */
  layOut(room) {
    const lanes = this.shown.filter(lane => !lane.signal), left = room - SIGNAL * (this.shown.length - lanes.length);
    const rows = lanes.reduce((sum, lane) => sum + this.rowsOf(lane), 0);
    const fits = Math.floor((left - lanes.length * (FLAGS + 2 * PAD + 1)) / Math.max(1, rows));
    this.row = this.compact ? COMPACT_ROW : Math.min(30, Math.max(13, fits));
    this.flags = this.compact ? COMPACT_FLAGS : FLAGS;
    this.pad = this.compact ? COMPACT_PAD : PAD;
    this.height = 0;
    for (const lane of this.shown) {
      lane.top = this.height;
      lane.height = lane.signal ? (this.compact ? COMPACT_SIGNAL : SIGNAL) : this.flags + this.rowsOf(lane) * this.row + 2 * this.pad + 1;
      this.height += lane.height;
    }
  }

  rowsOf(lane) { return this.compact ? 1 : Math.max(2, lane.kinds.length); }

  /** Where the row of a kind begins, from the top of its lane. */
  rowTop(lane, kind) { return this.flags + this.pad + (this.compact ? 0 : Math.max(0, lane.kinds.indexOf(kind)) * this.row); }

  /** The lanes between two heights. */
  between(top, bottom) { return this.shown.filter(lane => lane.top + lane.height > top && lane.top < bottom); }
  at(y) { return this.shown.find(lane => y >= lane.top && y < lane.top + lane.height); }
  of(number) { return this.shown.find(lane => lane.number === number); }

  /** The kind whose row is at a height of a lane; none in the compact view, where all share one row. */
  kindAt(lane, y) {
    return this.compact ? undefined : lane.kinds[Math.floor((y - lane.top - this.flags - this.pad) / this.row)];
  }
}
