/* The run: its timeline, which stays where it is over a save, and its frames as a table. */

class RunPart {
  constructor() {
    this.name = "run";
    this.title = "Run";
    this.drawing = element("div", { class: "timeline" });
    this.frames = new FrameTable(frame => this.point(frame));
    this.views = [["Timeline", this.drawing], ["Frames", this.frames.element]];
    this.switch = element("div", { class: "switch", role: "group", "aria-label": "the run as" },
      ...this.views.map(([title], n) => button(title, title, () => this.view(n))));
    this.waits = element("div", { class: "waits", role: "status", hidden: "" });
    this.element = element("section", { class: "part run" }, this.waits, this.drawing, this.frames.element);
    const keys = { addEventListener: (name, action) => document.addEventListener(name, event => this.pass(event, action)) };
    this.help = button("?", "about this page, its marks and keys, key ?", () => this.onHelp());
    this.timeline = new Timeline(this.drawing, keys, this.help);
    this.known = this.seen = this.knownLanes = this.seenLanes = null;
    this.onHelp = this.onView = () => {};
    this.changes = element("span", { class: "tag" });
    this.view(0);
  }

  /** The keys of the page are the timeline's while it is shown. */
  pass(event, action) {
    if (!this.element.hidden && !this.drawing.hidden && !event.target.closest("[role=tablist], .nodes")) action(event);
  }

  view(number) {
    (number ? this.frames.bar : this.timeline.bar.element).prepend(this.switch, this.changes);
    this.views.forEach(([, view], n) => {
      view.hidden = n !== number;
      this.switch.children[n].setAttribute("aria-pressed", String(n === number));
    });
    if (number === 1) this.frames.shown();
    this.onView();
  }

  shown() { if (!this.frames.element.hidden) this.frames.shown(); }

  /** What of the run isn't of the script as it stands, and whether that is being simulated. */
  wait(isWaiting) {
    const { trace } = this.timeline, isPart = trace && !trace.isWhole(), from = isPart ? axisLabel(trace.known + 1, 1000) : "";
    const words = isPart ? `${isWaiting ? "simulating" : "not simulated"} from ${from} ms on; what is pale is of the save before`
      : isWaiting ? "the run is of the save before; this one is being simulated" : "";
    this.waits.textContent = words;
    this.waits.hidden = !words;
  }

  take(items, changed) {
    const isOther = ["window/", "sorts/", "run"].some(start => touches(changed, start));
    const isMarked = changed.has("ledger") && this.timeline.trace && this.timeline.trace.isMarked;
    if (!isOther && !isMarked || !items.get("run")) return;
    const sorts = [], run = items.get("run");
    for (const { at, rows } of items.all("sorts/")) rows.forEach((row, n) => { sorts[at + n] = row; });
    const windows = items.all("window/");
    this.now = new Map(windows.map(content => [content.at, { content, sorts }]));
    this.nowLanes = run.lanes;
    const { marks, gone } = this.known ? new RunChanges(this.now, this.known) : { marks: new Map(), gone: [] };
    this.timeline.show({ ...run, lanes: this.lanes(run.lanes, gone), sorts, windows, marks, gone });
    this.frames.take(this.timeline.trace);
    const changes = changesWords(this.timeline.trace.changes());
    this.badge(changes, "changed");
    badge(this.changes, changes, "tag");
  }

  /** The lanes, with those of frames that have gone, and of nodes that have. */
  lanes(lanes, gone) {
    const keys = new Set(lanes.map(([key]) => key)), wanted = new Set(gone.map(frame => frame.sort[2]));
    const left = (this.knownLanes || []).filter(([key]) => !keys.has(key) && (key >= 0 || wanted.has(key)));
    return lanes.concat(left.map(([key, name, title]) => [key, name, title, false, true]));
  }

  /** A save is over: what is there now isn't new at the next one. */
  end(items) { this.seen = items && this.now; this.seenLanes = items && this.nowLanes; }
  begin() { this.known = this.seen; this.knownLanes = this.seenLanes; }

  /** Shows a frame of the table in the timeline. */
  point(frame) {
    this.view(0);
    this.timeline.scroller.focus();
    this.timeline.goTo(tellFrame(this.timeline, frame));
  }
}

/** Whether all of a run is there, and not a part before some moment alone. */
const isWhole = run => run.known >= run.end;

/** The frames as a table, of which the rows in view alone are made. */
class FrameTable {
  static ROW = 24;

  constructor(chosen) {
    this.chosen = chosen;
    this.node = element("select", { "aria-label": "node" });
    this.kind = element("select", { "aria-label": "kind" });
    this.text = element("input", { type: "search", placeholder: "message or object", "aria-label": "search in messages and objects" });
    this.isNew = element("input", { type: "checkbox" });
    this.count = element("span", { class: "soft", role: "status" });
    this.body = element("tbody", {});
    this.above = element("div", {});
    this.below = element("div", {});
    this.scroller = element("div", { class: "rows", tabindex: "0", role: "region", "aria-label": "frames" },
      this.above, frameTable(this.body), this.below);
    this.bar = element("div", { class: "bar" }, this.node, this.kind, this.text,
      element("label", {}, this.isNew, " changed by the save"), this.count);
    this.element = element("div", { class: "frames" }, this.bar, this.scroller);
    for (const field of [this.node, this.kind, this.text, this.isNew]) field.addEventListener("input", () => this.filter());
    this.draw = onceAFrame(() => this.drawNow());
    this.scroller.addEventListener("scroll", this.draw, { passive: true });
    new ResizeObserver(() => this.draw()).observe(this.scroller);
  }

  take(trace) {
    this.trace = trace;
    fillSelect(this.node, "all nodes", trace.lanes.map(lane => [lane.key, lane.name]));
    fillSelect(this.kind, "all kinds", trace.kinds.map((kind, n) => [n, kind]));
    this.filter();
  }

  shown() { this.draw(); }

  /** Which frames are listed: by sort, as all frames of a sort have the same node, kind and subject. */
  filter() {
    const { trace } = this, wanted = this.text.value.trim().toLowerCase();
    const fits = trace.sorts.concat(trace.goneSorts).map(sort =>
      (!this.node.value || String(trace.lanes[sort.lane].key) === this.node.value) && (!this.kind.value || String(sort.kind) === this.kind.value) && (!wanted || subjectOf(sort).toLowerCase().includes(wanted)));
    this.found = trace.inOrder().filter(i => fits[trace.sort[i]] && (!this.isNew.checked || trace.fresh.has(i) || trace.isGone(i)));
    const gone = this.found.reduce((sum, i) => sum + trace.isGone(i), 0), behind = gone ? `, ${counted(gone)} gone` : "";
    this.count.textContent = `${counted(this.found.length - gone)} of ${several(trace.count, "frame")}${behind}`;
    this.draw();
  }

  drawNow() {
    if (!this.trace || !this.scroller.clientHeight) return;
    const first = Math.max(0, Math.floor(this.scroller.scrollTop / FrameTable.ROW) - 4);
    const last = Math.min(this.found.length, first + Math.ceil(this.scroller.clientHeight / FrameTable.ROW) + 8);
    this.above.style.height = first * FrameTable.ROW + "px";
    this.below.style.height = Math.max(0, this.found.length - last) * FrameTable.ROW + "px";
    this.body.replaceChildren(...Array.from(this.found.subarray(first, last), frame => this.row(frame)));
  }

  /** How a row is marked. */
  markOf(frame) {
    const { trace } = this, moved = ofSave(trace, frame).slice(3);
    if (trace.isGone(frame)) return { class: "gone", title: moved };
    if (trace.isOld(trace.time[frame])) return { class: "of-run", title: "of the save before" };
    return trace.fresh.has(frame) ? { class: "new" } : moved ? { class: "moved", title: moved } : {};
  }

  row(frame) {
    const { trace } = this, sort = trace.sortOf(frame), kind = trace.kinds[sort.kind];
    const time = element("button", { type: "button", class: "link", title: "show it in the timeline" }, shownTime(trace.time[frame]));
    const was = trace.was.has(frame) ? [element("del", {}, spaced(trace.was.get(frame))), " "] : [];
    const cells = [time, trace.identifier(frame), kind, trace.lanes[sort.lane].name];
    const made = element("tr", this.markOf(frame), ...cells.map(cell => element("td", {}, cell)),
      element("td", {}, ...valuesFirst(trace, frame)), element("td", {}, ...was, spaced(trace.bytes(frame))));
    made.children[2].prepend(element("i", { style: `background: var(--${colourOf(kind)})` }));
    made.addEventListener("click", () => this.chosen(frame));
    return made;
  }
}

/** What a frame says with its values first, so that a narrow window cuts names off and no value. */
function valuesFirst(trace, frame) {
  const pairs = trace.pairs(frame), values = pairs.map(([, value]) => value).filter(Boolean).join(" ");
  if (!pairs.length) return [trace.text(frame)];
  const labels = element("span", { class: "soft" }, ` (${pairs.map(([label]) => label).join(", ")})`);
  return [`${trace.said(frame).subject}: ${values}`, labels];
}

const frameTable = body => element("table", {}, element("thead", { class: "unseen" }, element("tr", {},
  ...["Time", "Identifier", "Kind", "Sender", "What", "Bytes"].map(each => element("th", { scope: "col" }, each)))), body);

/** What is searched of all frames of a sort: what they say, or of a PDO its subject and the labels of its values. */
function subjectOf({ text }) {
  return typeof text === "string" ? text : [text[0], ...(text[1] || []).map(([label]) => label)].join(" ");
}

/** The choices of a field; what was chosen stays so, where it is still there. */
function fillSelect(field, all, choices) {
  const chosen = field.value;
  field.replaceChildren(element("option", { value: "" }, all), ...choices.map(([value, words]) => element("option", { value }, words)));
  field.value = choices.some(([value]) => String(value) === chosen) ? chosen : "";
}
