/* What stands at a place of the picture, and the box that tells it. */

/** What there is to tell of a place: { time, head, colour, words, values, code }, or null. */
function findAt(view, x, y) {
  const { scale } = view, bottom = view.height - view.bars();
  if (y >= bottom) return tellStep(view, scale.time(x));
  const lane = y < AXIS ? undefined : view.lanes.at(y - AXIS + view.scrolled());
  if (!lane) return null;
  if (lane.signal) return tellSignal(view, lane, scale.time(x));
  const within = y - AXIS + view.scrolled(), isBelow = within > lane.top + lane.height - 8;
  const gone = isBelow ? nearestIn(view, view.trace.goneRows[lane.number], scale.time(x)) : null;
  if (gone !== null) return tellFrame(view, gone);
  const flag = within < lane.top + view.lanes.flags ? nearestFlag(view, lane, x) : null;
  if (flag) return tellFlag(view, flag.flag, flag.others);
  const frame = nearestFrame(view, lane, x, within);
  return frame === null ? tellState(view, lane, scale.time(x)) : tellFrame(view, frame);
}

/** How far from the pointer something may be, in microseconds. */
const reachOf = scale => 7 * scale.span / scale.plot;

/** The frame of a row that is nearest to a moment, if one is near. */
function nearestIn(view, row, at) {
  const near = [firstAt(row.time, at) - 1, firstAt(row.time, at)].filter(i => i >= 0 && i < row.time.length);
  const [best] = near.sort((a, b) => Math.abs(row.time[a] - at) - Math.abs(row.time[b] - at));
  return best === undefined || Math.abs(row.time[best] - at) > reachOf(view.scale) ? null : row.frame[best];
}

/** The frame that is nearest to a place of a lane: in the row of the place first, then in the others. */
function nearestFrame(view, lane, x, y) {
  const { trace, scale } = view, wanted = view.lanes.kindAt(lane, y), at = scale.time(x), reach = reachOf(scale);
  let best = null, least = Infinity;
  for (const kind of lane.kinds) {
    const row = trace.row(lane.number, kind);
    if (!view.shows(kind)) continue;
    for (const i of [firstAt(row.time, at) - 1, firstAt(row.time, at)]) {
      if (i < 0 || i >= row.time.length) continue;
      const end = row.time[i], start = end - trace.slot(row.frame[i]);
      const far = Math.max(start - at, at - end, 0), penalty = wanted === undefined || wanted === kind ? 0 : reach;
      if (far <= reach && far + penalty < least) { least = far + penalty; best = row.frame[i]; }
    }
  }
  return best;
}

/** Behind a moment in words: that what stands there isn't of this run. */
const ofBefore = (trace, time, kind) => trace.isOld(time, kind) ? " · of the save before" : "";

/** Behind a frame in words: that the run beside this one has none like it at that time. */
const ofOther = (trace, frame) => !trace.isBesidePlan || !trace.fresh.has(frame) ? ""
  : trace.lanes[trace.sortOf(frame).lane].planned ? " · not recorded then" : " · not planned then";

/** What the last save has changed of a frame, in words. */
function ofSave(trace, frame) {
  const from = trace.moved.get(frame);
  if (trace.isGone(frame)) return " · gone with the last save";
  return from === undefined ? "" : ` · moved by ${from < trace.time[frame] ? "+" : "−"}${shownTime(Math.abs(trace.time[frame] - from))}`;
}

function tellFrame(view, frame) {
  const { trace } = view, sort = trace.sortOf(frame), kind = trace.kinds[sort.kind], said = trace.said(frame);
  const behind = ofBefore(trace, trace.time[frame]) + ofOther(trace, frame) + ofSave(trace, frame);
  return {
    time: trace.time[frame], lane: sort.lane, frame, colour: colourOf(kind),
    head: `${shownTime(trace.time[frame])} · ${kind} · ${trace.lanes[sort.lane].said}${behind}`,
    words: said.subject, values: said.values.concat(trace.was.has(frame) ? ["before: " + spaced(trace.was.get(frame))] : []),
    code: `${trace.identifier(frame)} [${sort.size}] ${spaced(trace.bytes(frame))}`,
  };
}

/** A flag, and up to eight others that stand at its pixel. */
function tellFlag(view, flag, others = []) {
  const { trace } = view, before = ofBefore(trace, flag.time, flag.kind);
  const more = others.length > 8 ? [`and ${others.length - 8} more`] : [];
  const values = others.slice(0, 8).map(each => `${shownTime(each.time)} ${each.words}`).concat(more);
  return { time: flag.time, lane: flag.lane, flag, colour: FLAG_COLOURS[flag.kind], values, code: "",
    head: `${shownTime(flag.time)} · ${FLAG_SAYS[flag.kind]} · ${trace.lanes[flag.lane].said}${before}`, words: flag.words };
}

function tellState(view, lane, time) {
  const state = view.trace.stateAt(lane.number, time);
  if (!state || time < 0 || time > view.trace.end) return null;
  return { time, lane: lane.number, colour: colourOf(state), values: [], code: "", head: shownTime(Math.round(time)), words: `${lane.said} ${state}` };
}

function tellStep(view, time) {
  const { trace } = view, step = Math.floor(time / trace.step);
  if (step < 0 || step >= trace.steps) return null;
  const parts = trace.kinds.map((kind, n) => [kind, n]).filter(([, n]) => view.shows(n) && trace.counts[n][step]);
  const span = `${axisLabel(step * trace.step, 1000)} to ${axisLabel((step + 1) * trace.step, 1000)} ms`;
  return { time, colour: "faint", head: span + ofBefore(trace, step * trace.step),
    words: `${percent(view.busy(step))} of the bus, ${several(view.total(step), "frame")}`, values: parts.map(([kind, n]) => `${kind} ${counted(trace.counts[n][step])}`), code: "" };
}

/** The box beside the pointer. */
class Tip {
  constructor(root) {
    this.box = element("div", { class: "tip", hidden: "" });
    root.append(this.box);
  }

  get isShown() { return !this.box.hidden; }
  hide() { this.box.hidden = true; }

  /** Tells something beside a point of the window. */
  show(told, x, y) {
    const dot = element("i", { style: `background: var(--${told.colour})` });
    this.box.replaceChildren(element("div", { class: "head" }, dot, told.head), element("div", { class: "what" }, told.words));
    if (told.values.length) this.box.append(element("ul", {}, ...told.values.map(each => element("li", {}, each))));
    if (told.code) this.box.append(element("code", {}, told.code));
    this.box.hidden = false;
    const wide = this.box.offsetWidth, high = this.box.offsetHeight;
    const left = x + 16 + wide > innerWidth - 8 ? x - wide - 12 : x + 16;
    this.box.style.left = Math.max(8, Math.min(left, innerWidth - wide - 8)) + "px";
    this.box.style.top = Math.max(8, y + 16 + high > innerHeight - 8 ? y - high - 12 : y + 16) + "px";
  }
}

/** What is told, in one line for a voice. */
const spoken = told => [told.head, told.words, ...told.values].join(", ");
