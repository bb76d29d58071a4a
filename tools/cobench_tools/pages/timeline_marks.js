/* The marks of frames. What can't be told apart on the screen is drawn once, so that the number of frames matters little. */

const NARROW = 2;      // pixels that a mark has at least
const LABELLED = 34;   // pixels from which on a mark has its identifier in it

/**
 * Gives the runs of marks of a row that are in view: left, right, and the frame where it stands alone and is wide.
 * A frame that is narrower than two pixels takes these two; frames behind it that touch it are one run with it.
 */
function eachRun(trace, row, scale, take) {
  const x = scale.x, time = scale.time, { time: times, frame: frames } = row;
  let i = firstAt(times, scale.from);
  while (i < times.length) {
    const frame = frames[i], right = x(times[i]), left = x(times[i] - trace.slot(frame));
    if (left > scale.right) return;
    if (right - left > NARROW) {
      take(Math.max(left, 0), right, frame);
      i++;
      continue;
    }
    const start = Math.round(right) - 1;
    let end = start + NARROW;
    for (;;) {
      i = firstAt(times, time(end - .5), i + 1);
      const next = i < times.length ? Math.round(x(times[i])) - 1 : Infinity;
      if (next > end || end > scale.right) break;
      end = next + NARROW;
    }
    take(Math.max(start, 0), end, -1);
  }
}

/** The rows of a lane, one for each kind. */
function drawRows(pen, view, lane) {
  for (const kind of lane.kinds) {
    if (!view.shows(kind)) continue;
    const top = lane.top + view.lanes.rowTop(lane, kind), name = colourOf(view.trace.kinds[kind]);
    pen.fillStyle = view.colours[name];
    const wide = [];
    eachRun(view.trace, view.trace.row(lane.number, kind), view.scale, (left, right, frame) => {
      const gap = frame >= 0 && right - left > 6 ? 1 : 0;
      pen.fillRect(left, top + 1, Math.max(NARROW, right - left - gap), view.lanes.row - 2);
      if (right - left > LABELLED && frame >= 0) wide.push([left, right, frame]);
    });
    for (const [left, right, frame] of wide) drawLabel(pen, view, left, right, top, frame, name);
  }
}

/** The one row of a lane: where several kinds share a pixel, each has its part of the height. */
function drawCompactRow(pen, view, lane) {
  const kindsAt = new Uint8Array(Math.ceil(view.scale.width) + 4), wide = [];
  for (const kind of lane.kinds) {
    if (!view.shows(kind)) continue;
    eachRun(view.trace, view.trace.row(lane.number, kind), view.scale, (left, right, frame) => {
      for (let at = Math.floor(left); at < right && at < kindsAt.length; at++) kindsAt[at] |= 1 << kind;
      if (right - left > LABELLED && frame >= 0) wide.push([left, right, frame, kind]);
    });
  }
  const top = lane.top + view.lanes.rowTop(lane, 0);
  for (let from = 0, at = 1; at <= kindsAt.length; at++) {
    if (at < kindsAt.length && kindsAt[at] === kindsAt[from]) continue;
    if (kindsAt[from]) drawBands(pen, view, kindsAt[from], from, at - from, top);
    from = at;
  }
  for (const [left, right, frame, kind] of wide) drawLabel(pen, view, left, right, top, frame, colourOf(view.trace.kinds[kind]));
}

/** What a save has changed has a line under it: a full one what is new, a pale one what has only moved, a hollow one what has gone. */
function drawChanges(pen, view, lane) {
  const { trace, scale, colours } = view, high = view.lanes.compact ? 3 : 5, top = lane.top + lane.height - 1 - high;
  const line = (colour, rows) => {
    pen.fillStyle = colours[colour];
    eachRun(trace, rows[lane.number], scale, (left, right) => pen.fillRect(left - 1, top, right - left + 2, high));
  };
  line("moved", trace.movedRows);
  eachRun(trace, trace.goneRows[lane.number], scale, (left, right) => drawHollow(pen, colours, left - 2, top, right - left + 4, high));
  line("fresh", trace.freshRows);
}

function drawHollow(pen, colours, left, top, wide, high) {
  pen.fillStyle = colours.fresh;
  pen.fillRect(left, top, wide, high);
  pen.fillStyle = colours.paper;
  pen.fillRect(left + 1, top + 1, wide - 2, high - 2);
}

function drawBands(pen, view, mask, left, wide, top) {
  const kinds = view.trace.kinds.map((_, kind) => kind).filter(kind => mask >> kind & 1);
  const high = (view.lanes.row - 2) / kinds.length;
  kinds.forEach((kind, n) => {
    pen.fillStyle = view.colours[colourOf(view.trace.kinds[kind])];
    pen.fillRect(left, top + 1 + n * high, wide, high);
  });
}

/** The identifier of a frame in its mark, and what it says where there is room. */
function drawLabel(pen, view, left, right, top, frame, name) {
  pen.save();
  pen.beginPath();
  pen.rect(left, top, Math.min(right, view.scale.right) - left - 4, view.lanes.row);
  pen.clip();
  const words = view.trace.identifier(frame) + (right - left > 90 ? "  " + view.trace.text(frame) : "");
  write(pen, words, left + 4, top + view.lanes.row / 2 + .5, view.colours["on-" + name], 9.5);
  pen.restore();
  pen.fillStyle = view.colours[name];
}

/** The name of the colour of a kind. */
const colourOf = kind => kind.toLowerCase().replace(" ", "-");

const fontOf = size => `${size}px system-ui, "Segoe UI", Roboto, "DejaVu Sans", sans-serif`;

/** Writes words from a place on. */
function write(pen, words, x, y, colour, size) {
  pen.font = fontOf(size);
  pen.fillStyle = colour;
  pen.fillText(words, x, y);
}

function widthOf(pen, words, size) {
  pen.font = fontOf(size);
  return pen.measureText(words).width;
}
