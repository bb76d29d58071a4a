/* What stands above the picture: buttons, the search, the kinds of frames, and the list of events and alarms: emergencies, failed boots. */

class Toolbar {
  constructor(view, help) {
    this.view = view;
    this.help = help;
    this.search = element("input", { type: "search", placeholder: "node, message, 181h", size: "16",
      "aria-label": "search for a node, a message or an identifier" });
    this.count = element("span", { class: "soft", role: "status" });
    this.legend = element("div", { class: "legend", role: "group", "aria-label": "kinds of frames" });
    this.list = new FlagList(view);
    this.signals = new SignalList(view);
    this.cursors = view.cursors = new Cursors(view);
    this.states = new Set();
    this.element = element("div", { class: "tools" }, this.buttons(), this.legend);
    this.search.addEventListener("input", () => view.search(this.search.value));
    this.search.addEventListener("keydown", event => this.leaveSearch(event));
  }

  buttons() {
    const { view } = this;
    this.out = button("−", "zoom out, key −", () => view.zoom(2));
    this.in = button("+", "zoom in, key +", () => view.zoom(.5));
    this.all = button("all", "show the whole run, key 0", () => view.showAll());
    return element("div", { class: "buttons", role: "toolbar", "aria-label": "timeline" },
      this.search, this.count, this.list.element, this.signals.element, this.cursors.element, this.out, this.in, this.all, this.help);
  }

  /** Enter and Escape give the keys back to the picture; Escape shows all lanes again. */
  leaveSearch(event) {
    if (event.key === "Escape") { this.search.value = ""; this.view.search(""); }
    if (event.key === "Escape" || event.key === "Enter") { this.view.scroller.focus(); event.preventDefault(); }
    if (event.key === "Enter") this.view.goToFound();
  }

  take(trace) {
    const kinds = trace.kinds.map((name, kind) => ({ name, kind, count: trace.countOf(kind), there: trace.countOf(kind, true) }))
      .filter(each => each.there);
    if (trace.isWhole()) this.states.clear();
    for (const [, state] of trace.lanes.flatMap(lane => lane.states)) this.states.add(state);
    const names = trace.content.stateNames.filter((name, state) => this.states.has(state) && name !== "unknown");
    const differs = trace.content.windows.some(each => each.other && each.other.length) ? ["differs"] : [];
    this.legend.replaceChildren(...kinds.map(each => this.chip(each)), ...names.concat(differs).map(stateChip), ...changeChips(trace));
    this.list.take(trace);
    this.signals.take(trace);
  }

  /** A kind of frames, by which it is hidden and shown. */
  chip({ name, kind, count }) {
    const made = element("button", { class: "chip", "aria-pressed": String(this.view.shows(kind)) },
      element("i", { style: `background: var(--${colourOf(name)})` }), element("b", {}, name), element("span", { class: "of-run" }, counted(count)));
    made.addEventListener("click", () => {
      const shown = !this.view.shows(kind);
      made.setAttribute("aria-pressed", String(shown));
      this.view.toggle(kind, shown);
    });
    return made;
  }

  found(shown, all, frames) { this.count.textContent = frames ? several(frames, "frame") : shown < all ? `${shown} of ${all}` : ""; }
  follow() { this.all.disabled = this.out.disabled = this.view.scale.isWhole(); }
}

const stateChip = name =>
  element("span", { class: "chip state" }, element("i", { class: colourOf(name), style: `background: var(--${colourOf(name)})` }), name);

/** What the lines under frames mean, of those that there are. */
function changeChips(trace) {
  if (!trace.content.marks) return [];
  const are = [["new", trace.fresh.size], ["moved", trace.moved.size], ["gone", trace.time.length - trace.count]];
  return are.filter(([, count]) => count).map(([what]) => element("span", { class: "chip change" }, element("i", { class: what }), what));
}

function button(words, title, action) {
  const made = element("button", { type: "button", title, "aria-label": title.replace(/,.*/, "") }, words);
  made.addEventListener("click", action);
  return made;
}

const KEYS = [["+ −", "zoom"], ["0", "whole run"], ["← →", "move in time"], ["↑ ↓", "scroll"], ["Page ↑ ↓", "a page of lanes"],
  ["n p", "next and previous event or alarm"], [". ,", "next and previous frame of the lane"], ["/", "search for a node, a message or an identifier; Enter goes to its first frame"],
  ["a b", "cursor A or B where the pointer is"], ["c", "cursors away"],
  ["?", "this help"], ["Esc", "close"]];
const MOUSE = [["wheel", "scrolls the lanes"], ["Ctrl + wheel", "zooms"], ["Shift + wheel", "moves in time"], ["drag", "moves"],
  ["double click", "zooms in"]];
const FINGERS = [["swipe", "moves"], ["pinch", "zooms"], ["tap", "tells what is there"]];

/** What keys, wheel and fingers do, as a table. */
function helpTable(pairs) {
  const row = ([key, what]) => element("tr", {}, element("td", {}, element("kbd", {}, key)), element("td", {}, what));
  return element("table", {}, ...pairs.map(row));
}

/** The help of a timeline. */
function helpBox() {
  const link = element("p", { class: "soft" }, "The address ends with the part that is shown, in microseconds: #120000-280000.");
  return popUp("?", "keys, mouse and fingers, key ?", helpTable([...MOUSE, ...FINGERS, ...KEYS]), link);
}

/** Opens a box, and gives it the keys. */
function openBox(box) {
  box.open = true;
  box.firstChild.focus();
}

/** A button with a box below it. */
function popUp(words, title, ...children) {
  const summary = element("summary", { class: "button", title, "aria-label": title }, words);
  const made = element("details", { class: "pop" }, summary, element("div", { class: "box" }, ...children));
  document.addEventListener("pointerdown", event => { if (!made.contains(event.target)) made.open = false; });
  made.addEventListener("keydown", event => {
    if (event.key !== "Escape" || !made.open) return;
    made.open = false;
    summary.focus();
    event.preventDefault();
  });
  return made;
}

/** The list of events and alarms, made when it is opened. */
class FlagList {
  static MOST = 1000;

  constructor(view) {
    this.view = view;
    this.items = element("ol", { class: "flags" });
    this.element = popUp("", "events and alarms", this.items);
    this.element.addEventListener("toggle", () => { if (this.element.open) this.fill(); });
  }

  take(trace) {
    const trouble = trace.flags.filter(isTrouble).length, summary = this.element.firstChild;
    this.trace = trace;
    this.element.hidden = !trace.flags.length;
    const expected = trace.flags.filter(flag => flag.kind === "expected").length, behind = expected ? `, ${expected} as planned` : "";
    summary.textContent = trouble ? several(trouble, "alarm") + behind : several(trace.flags.length, "event");
    summary.className = trouble ? "button of-run wrong" : "button of-run";
    if (this.element.open) this.fill();
  }

  fill() {
    const flags = this.trace.flags, shown = flags.length > FlagList.MOST ? flags.filter(isTrouble).slice(0, FlagList.MOST) : flags;
    const more = flags.length - shown.length;
    this.items.replaceChildren(...shown.map(flag => this.item(flag)));
    if (more) this.items.append(element("li", { class: "soft" }, `${counted(more)} more on the picture`));
  }

  item(flag) {
    const classes = (isTrouble(flag) ? "wrong" : "") + (this.trace.isOld(flag.time, flag.kind) ? " of-run" : "");
    const made = element("button", { type: "button", class: classes },
      element("span", { class: "at" }, shownTime(flag.time)),
      element("span", {}, element("b", {}, this.trace.lanes[flag.lane].said), " ", flag.words));
    made.addEventListener("click", () => { this.element.open = false; this.view.scroller.focus(); this.view.goTo(tellFlag(this.view, flag)); });
    return element("li", {}, made);
  }
}
