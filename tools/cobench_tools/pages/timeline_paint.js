/* The picture: axis, lanes with their states, and bars, drawn on one sheet by one scale. */

const BARS = 118, LOW_BARS = 72;      // height of the bars, and where there is little room

/** The drawing of a canvas whose size in pixels of the page is given, cleared. */
function penOf(canvas, wide, high) {
  const ratio = window.devicePixelRatio || 1;
  canvas.style.width = wide + "px";
  canvas.style.height = high + "px";
  canvas.width = Math.round(wide * ratio);
  canvas.height = Math.round(high * ratio);
  const pen = canvas.getContext("2d");
  pen.setTransform(ratio, 0, 0, ratio, 0, 0);
  pen.textBaseline = "middle";
  return pen;
}

function drawAxis(pen, view, ticks) {
  const { colours, scale } = view;
  pen.fillStyle = colours.paper;
  pen.fillRect(0, 0, scale.width, AXIS);
  for (const at of ticks.at) {
    const x = scale.x(at), label = axisLabel(at, ticks.step);
    pen.fillStyle = colours.edge;
    pen.fillRect(Math.round(x), AXIS - 6, 1, 6);
    const half = widthOf(pen, label, 11) / 2;
    write(pen, label, Math.min(Math.max(x, half + 1), scale.width - half - 1) - half, AXIS / 2 - 2, colours.ink, 11);
  }
  pen.fillStyle = colours.line;
  pen.fillRect(0, AXIS - 1, scale.width, 1);
}

function drawLanes(pen, view, ticks) {
  const { scale, lanes, colours } = view, room = view.room();
  pen.save();
  pen.beginPath();
  pen.rect(0, AXIS, scale.width, room);
  pen.clip();
  pen.translate(0, AXIS - view.scrolled());
  for (const lane of lanes.between(view.scrolled(), view.scrolled() + room)) {
    drawStates(pen, view, lane);
    pen.fillStyle = colours.grid;
    for (const at of ticks.at) pen.fillRect(Math.round(scale.x(at)), lane.top, 1, lane.height);
    if (lane.signal) drawSignal(pen, view, lane); else drawFrames(pen, view, lane);
    pen.fillStyle = colours.line;
    pen.fillRect(0, lane.top + lane.height - 1, scale.width, 1);
  }
  pen.restore();
}

/** The marks of a lane, and its flags. */
function drawFrames(pen, view, lane) {
  if (view.lanes.compact) drawCompactRow(pen, view, lane); else drawRows(pen, view, lane);
  drawChanges(pen, view, lane);
  drawFlags(pen, view, lane);
}

/** The states of a node as bands behind its marks. */
function drawStates(pen, view, lane) {
  const { scale, colours, trace } = view;
  lane.states.forEach(([time, state], n) => {
    const next = n + 1 < lane.states.length ? lane.states[n + 1][0] : Math.min(trace.end, trace.known);
    const from = Math.max(scale.x(time), 0), to = Math.min(scale.x(next), scale.width);
    if (to <= from) return;
    const name = trace.content.stateNames[state];
    if (name === "unknown") return;
    pen.fillStyle = colours[colourOf(name)];
    pen.fillRect(from, lane.top, to - from, lane.height - 1);
    if (["off", "not heard"].includes(name)) hatch(pen, colours.hatch, from, lane.top, to - from, lane.height - 1);
  });
}

function hatch(pen, colour, left, top, wide, high) {
  pen.save();
  pen.beginPath();
  pen.rect(left, top, wide, high);
  pen.clip();
  pen.strokeStyle = colour;
  pen.lineWidth = 1;
  pen.beginPath();
  for (let at = left - high; at < left + wide; at += 7) { pen.moveTo(at, top + high); pen.lineTo(at + high, top); }
  pen.stroke();
  pen.restore();
}

/** A line along the axis as far as the run is known; what lies behind is of the trace before, under a veil. */
function drawVeil(pen, view) {
  const { scale, colours, trace } = view, high = view.height - AXIS;
  if (trace.isWhole()) return;
  const from = Math.max(scale.x(trace.known), 0), wide = Math.min(scale.x(trace.end), scale.width) - from;
  pen.fillStyle = colours.accent;
  pen.fillRect(0, AXIS - 2, from, 2);
  if (wide <= 0) return;
  pen.fillRect(from, AXIS - 2, 1, high + 2);
  pen.globalAlpha = .72;
  pen.fillStyle = colours.paper;
  pen.fillRect(from + 1, AXIS, wide, high);
  pen.globalAlpha = 1;
  hatch(pen, colours.hatch, from + 1, AXIS, wide, high);
}

/** The steps in view as bars: where several share a pixel, the highest of them. */
function barsInView(view) {
  const { trace, scale } = view, x = scale.x, bars = [];
  const from = Math.max(0, Math.floor(scale.from / trace.step)), to = Math.min(trace.steps - 1, Math.floor(scale.to / trace.step));
  for (let step = from; step <= to; step++) {
    const left = Math.max(x(step * trace.step), 0), right = Math.min(x((step + 1) * trace.step), scale.right);
    const total = view.busy(step), last = bars[bars.length - 1];
    const shares = last && right - left < 1 && Math.floor(left) === Math.floor(last.left);
    if (!shares) bars.push({ step, left, right, total });
    else if (total > last.total) Object.assign(last, { step, total });
  }
  return bars;
}

function drawBars(pen, view, top) {
  const { scale, colours } = view, bars = barsInView(view), floor = view.bars() - 14, high = floor - 12;
  const most = Math.max(1, ...bars.map(bar => bar.total));
  pen.save();
  pen.translate(0, top);
  pen.fillStyle = colours.back;
  pen.fillRect(0, 0, scale.width, view.bars());
  pen.fillStyle = colours.line;
  pen.fillRect(0, 0, scale.width, 1);
  for (const share of [0, .5, 1]) pen.fillRect(0, floor - share * high, scale.right, 1);
  for (const bar of bars) drawBar(pen, view, bar, floor, high / most);
  pen.restore();
  view.showMost(most, floor, high);
}

/** A bar, with its kinds one above the other. */
function drawBar(pen, view, bar, floor, unit) {
  const { trace } = view, gap = bar.right - bar.left > 4 ? 1 : 0;
  let y = floor;
  trace.kinds.forEach((kind, n) => {
    if (!view.shows(n) || !trace.slots[n][bar.step]) return;
    const high = 100 / trace.step * trace.slots[n][bar.step] * unit;
    pen.fillStyle = view.colours[colourOf(kind)];
    pen.fillRect(bar.left, y - high, Math.max(bar.right - bar.left - gap, 1), high);
    y -= high;
  });
}
