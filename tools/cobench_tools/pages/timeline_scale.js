/* Time and pixels: which part of a run is shown, and where each moment of it stands. */

class Scale {
  static LEFT = 6;       // pixels before the first moment, so that a flag there is whole
  static RIGHT = 18;     // pixels behind the last one
  static LEAST = 200;    // microseconds that are shown at least

  constructor() {
    this.width = 1;
    this.setEnd(0);
    this.showAll();
  }

  setEnd(end) { this.all = Math.max(end * 1.01, 100); }
  setWidth(width) { this.width = width; }

  get span() { return this.to - this.from; }
  get plot() { return Math.max(1, this.width - Scale.LEFT - Scale.RIGHT); }
  get right() { return this.width - Scale.RIGHT; }
  isWhole() { return this.from <= 0 && this.to >= this.all; }

  /** The functions from time to pixel and back, with all that they need taken once. */
  get x() {
    const { from } = this, pixels = this.plot / this.span;
    return time => Scale.LEFT + (time - from) * pixels;
  }
  get time() {
    const { from } = this, micros = this.span / this.plot;
    return x => from + (x - Scale.LEFT) * micros;
  }

  /** Shows from one moment to another, as far as there is something. */
  move(from, to) {
    const size = Math.min(Math.max(to - from, Scale.LEAST), this.all);
    const start = Math.min(Math.max(from, -size * .02), Math.max(0, this.all - size));
    this.from = size === this.all ? 0 : start;
    this.to = this.from + size;
  }

  showAll() { this.from = 0; this.to = this.all; }
  moveBy(micros) { this.move(this.from + micros, this.to + micros); }

  /** Shows `factor` times as much, the moment at a pixel staying there. */
  zoom(factor, x) {
    const at = this.time(x === undefined ? Scale.LEFT + this.plot / 2 : x);
    const size = Math.min(Math.max(this.span * factor, Scale.LEAST), this.all), share = (at - this.from) / this.span;
    this.move(at - share * size, at + (1 - share) * size);
  }

  /** The moments of the axis, and their distance: 1, 2 or 5 and zeros. */
  ticks() {
    const wanted = this.span / Math.max(3, this.plot / 100);
    const base = 10 ** Math.floor(Math.log10(wanted));
    const step = [1, 2, 5, 10].map(each => each * base).find(each => each >= wanted);
    const first = Math.ceil(this.from / step), count = Math.max(0, Math.floor(this.to / step) - first + 1);
    return { step, at: Array.from({ length: count }, (_, n) => (first + n) * step) };
  }
}

/** A moment in words, to the microsecond. */
function shownTime(micros) {
  return (micros / 1000).toLocaleString("en", { minimumFractionDigits: 3, maximumFractionDigits: 3 }) + " ms";
}

/** A moment of the axis in milliseconds, with the digits that its step asks for. */
function axisLabel(micros, step) {
  const digits = Math.max(0, -Math.floor(Math.log10(step / 1000) + 1e-9));
  return (micros / 1000).toLocaleString("en", { minimumFractionDigits: digits, maximumFractionDigits: digits });
}
