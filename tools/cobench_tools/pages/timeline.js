/* The timeline: a toolbar, the kinds of frames, and the picture, in an element of a page. */

class Timeline {
  /** `keys` is the element whose keys are the picture's: the document where it has the page for itself; `help` opens at `?`. */
  constructor(root, keys, help) {
    this.root = root;
    this.help = help;
    this.scale = new Scale();
    this.lanes = new Lanes();
    this.hidden = new Set();
    this.at = null;                     // the moment at which the pointer is
    this.build();
    this.draw = onceAFrame(() => this.drawNow());
    this.onMove = () => {};
    this.listen(keys || root);
  }

  build() {
    this.bar = new Toolbar(this, this.help);
    this.names = element("ol", { class: "lanes" });
    this.corner = element("div", { class: "corner" }, "time in ms");
    this.most = element("span", { class: "most" });
    this.least = element("span", { class: "least" }, "0");
    this.foot = element("div", { class: "foot" }, element("b", {}, "bus load in each 10 ms"), this.most, this.least);
    this.canvas = element("canvas", { role: "img" });
    this.cursor = element("div", { class: "cursor", hidden: "" });
    this.sheet = element("div", { class: "sheet" }, this.canvas, this.cursor);
    this.scroller = element("div", { class: "view", tabindex: "0", role: "group" },
      element("div", { class: "all" }, element("div", { class: "names" }, this.corner, this.names, this.foot), this.sheet));
    this.voice = element("div", { class: "unseen", role: "status", "aria-live": "polite" });
    this.root.append(this.bar.element, this.scroller, this.voice);
    this.tip = new Tip(this.root);
  }

  listen(keys) {
    new ResizeObserver(() => this.layOut()).observe(this.scroller);
    matchMedia("(prefers-color-scheme: dark)").addEventListener("change", () => { this.colours = colours(); this.draw(); });
    this.scroller.addEventListener("scroll", () => { this.tip.hide(); this.draw(); }, { passive: true });
    this.scroller.addEventListener("wheel", event => onWheel(this, event), { passive: false });
    const actions = keyActions(this, () => this.bar.search.focus());
    keys.addEventListener("keydown", event => onKey(actions, event));
    new Pointers(this, this.canvas);
  }

  /** Shows a trace; the place and the zoom stay where there was one. */
  show(content) {
    const first = !this.trace, whole = first || this.scale.isWhole();
    this.trace = new Trace(content);
    this.scale.setEnd(this.trace.end);
    if (whole) this.scale.showAll(); else this.scale.move(this.scale.from, this.scale.to);
    this.colours = colours();
    this.bar.take(this.trace);
    this.describe();
    this.search(this.bar.search.value);
  }

  describe() {
    const { trace } = this, trouble = trace.flags.filter(isTrouble).length;
    this.canvas.setAttribute("aria-label", `${several(trace.lanes.length, "lane")}, ${several(trace.count, "frame")}, ` +
      `${several(trouble, "alarm")} in ${shownTime(trace.end)}${trace.isWhole() ? "" : `, known up to ${shownTime(trace.known)}`}`);
    this.scroller.setAttribute("aria-label", "timeline; n and p go through events and alarms, period and comma through frames");
  }

  /** Shows the lanes whose name or number has a text. */
  search(text) {
    const frames = this.lanes.take(this.trace, text, this.bar.signals.lanes()), shown = this.lanes.shown.filter(lane => !lane.signal).length;
    this.bar.found(shown, this.trace.lanes.length, frames);
    this.layOut();
  }

  /** Goes to the first frame in view, or behind it, of those that were looked for. */
  goToFound() {
    const next = [this.scale.from, 0].map(from => this.trace.firstFound(from)).find(each => each !== null);
    if (next !== undefined) this.goTo(tellFrame(this, next));
  }

  /** Places all by the size that the page gives. */
  layOut() {
    if (!this.trace) return;
    this.height = this.scroller.clientHeight;
    this.root.style.setProperty("--bars", this.bars() + "px");
    this.lanes.layOut(this.room());
    this.names.style.height = this.lanes.height + "px";
    this.names.replaceChildren(...this.lanes.shown.map(lane => laneLabel(this, lane)));
    this.drawNow();
  }

  bars() { return this.height < 480 ? LOW_BARS : BARS; }
  room() { return Math.max(0, this.height - AXIS - this.bars()); }
  scrolled() { return Math.max(0, this.scroller.scrollTop); }
  shows(kind) { return !this.hidden.has(kind); }
  busy(step) { return this.trace.busyIn(step, kind => this.shows(kind)); }
  total(step) { return this.trace.counts.reduce((sum, each, kind) => sum + (this.shows(kind) ? each[step] : 0), 0); }

  drawNow() {
    if (!this.trace || !this.height) return;
    this.scale.setWidth(this.scroller.clientWidth - this.corner.offsetWidth);
    const pen = penOf(this.canvas, this.scale.width, this.height), ticks = this.scale.ticks();
    pen.fillStyle = this.colours.paper;
    pen.fillRect(0, 0, this.scale.width, this.height);
    drawLanes(pen, this, ticks);
    drawAxis(pen, this, ticks);
    drawBars(pen, this, this.height - this.bars());
    drawVeil(pen, this);
    this.cursors.draw(pen);
    this.bar.follow();
  }

  showMost(most, floor, high) {
    this.most.textContent = percent(most);
    this.most.style.top = floor - high + "px";
    this.least.style.top = floor + "px";
  }

  // Moving.

  move(from, to) { this.scale.move(from, to); this.draw(); this.onMove(); }
  moveBy(micros) { this.scale.moveBy(micros); this.draw(); this.onMove(); }
  zoom(factor, x) { this.scale.zoom(factor, x); this.tip.hide(); this.draw(); this.onMove(); }
  showAll() { this.scale.showAll(); this.draw(); this.onMove(); }
  scrollTo(y) { this.scroller.scrollTop = y; }
  scrollBy(y) { this.scroller.scrollTop += y; }
  toggle(kind, shown) { if (shown) this.hidden.delete(kind); else this.hidden.add(kind); this.layOut(); }

  // Telling.

  placeOf(event) {
    const box = this.canvas.getBoundingClientRect();
    return { x: event.clientX - box.left, y: event.clientY - box.top };
  }

  /** A pointer is at a place: the cursor goes there, and what is there is told. */
  point(event, aloud) {
    const { x, y } = this.placeOf(event), told = findAt(this, x, y);
    this.cursor.style.transform = `translateX(${x}px)`;
    this.cursor.hidden = false;
    this.at = told && (told.flag || told.frame !== undefined) ? told.time : this.scale.time(x);
    if (!told) { this.tip.hide(); return; }
    this.told = told;
    this.tip.show(told, event.clientX, event.clientY);
    if (aloud) this.voice.textContent = spoken(told);
  }

  forget() {
    this.at = null;
    this.cursor.hidden = true;
    this.tip.hide();
  }

  /** Goes to the next flag, or the one before, of the lanes that are shown. */
  stepFlag(by) {
    const flags = this.trace.flags.filter(flag => this.lanes.of(flag.lane));
    if (!flags.length) return;
    const now = this.told && this.told.flag ? flags.indexOf(this.told.flag) : -1;
    const at = this.told ? this.told.time : -1, behind = flags.findIndex(flag => flag.time > at);
    const next = now >= 0 ? now + by : by > 0 ? behind : (behind < 0 ? flags.length : behind) - 1;
    this.goTo(tellFlag(this, flags[Math.min(Math.max(next, 0), flags.length - 1)]));
  }

  /** Goes to the next frame, or the one before, of the lane that was told of last. */
  stepFrame(by) {
    const lane = this.lanes.of(this.told ? this.told.lane : -1) || this.lanes.shown[0];
    if (!lane) return;
    const at = this.told && this.told.lane === lane.number ? this.told.time : this.scale.from;
    const next = nextFrame(this, lane, at, by);
    if (next !== null) this.goTo(tellFrame(this, next));
  }

  /** Brings what is told into view, with its tip. */
  goTo(told) {
    const { scale } = this, lane = this.lanes.of(told.lane);
    this.told = told;
    this.at = null;
    if (!lane) { this.bar.search.value = ""; this.search(""); this.goTo(told); return; }
    if (told.time < scale.from || told.time > scale.to) scale.move(told.time - scale.span / 2, told.time + scale.span / 2);
    const top = this.scrolled();
    if (lane.top < top || lane.top + lane.height > top + this.room()) this.scrollTo(lane.top + lane.height / 2 - this.room() / 2);
    this.draw();
    this.onMove();
    this.pointOut(told, lane);
  }

  pointOut(told, lane) {
    const box = this.canvas.getBoundingClientRect(), x = this.scale.x(told.time);
    const top = lane.top + AXIS - this.scrolled();
    requestAnimationFrame(() => {
      this.cursor.style.transform = `translateX(${x}px)`;
      this.cursor.hidden = false;
      this.tip.show(told, box.left + x, box.top + (told.flag ? top + 4 : top + lane.height / 2));
      this.voice.textContent = spoken(told);
    });
  }
}

/** The next frame of a lane behind a moment, or the last one before it, of the kinds that are shown. */
function nextFrame(view, lane, time, by) {
  let best = null;
  for (const kind of lane.kinds.filter(each => view.shows(each))) {
    const row = view.trace.row(lane.number, kind), at = by > 0 ? firstAt(row.time, time + .5) : firstAt(row.time, time - .5) - 1;
    if (at < 0 || at >= row.frame.length) continue;
    if (best === null || (by > 0 ? row.frame[at] < best : row.frame[at] > best)) best = row.frame[at];
  }
  return best;
}

/** The name of a lane, and the kinds of its rows. */
function laneLabel(view, lane) {
  const { lanes, trace } = view, title = lanes.compact ? lane.title.replace("node ", "") : lane.title;
  const label = element("li", { style: `top: ${lane.top}px; height: ${lane.height}px`, title: `${lane.name} ${lane.title}` },
    element("b", {}, lane.name), element("span", { class: "number" }, title));
  if (lane.trouble) label.prepend(element("i", { class: "alarm of-run", role: "img", "aria-label": several(lane.trouble, "alarm") }, "!"));
  if (lane.gone) label.classList.add("gone");
  if (lane.signal) label.className = "signal";
  else if (lanes.compact) label.classList.add("compact");
  else for (const kind of lane.kinds) label.append(kindLabel(view, lane, kind));
  return label;
}

function kindLabel(view, lane, kind) {
  const name = view.trace.kinds[kind], top = view.lanes.rowTop(lane, kind) + view.lanes.row / 2;
  const style = `top: ${top}px; color: var(--${colourOf(name)}-ink)`;
  return element("span", { class: view.shows(kind) ? "kind" : "kind off", style }, name);
}
