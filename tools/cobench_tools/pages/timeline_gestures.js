/* Wheel, mouse, fingers and keys. */

/** Wheel: scrolls the lanes as the page does; with Ctrl it zooms, sideways or with Shift it moves in time. */
function onWheel(view, event) {
  const lines = event.deltaMode === 1 ? 16 : 1, down = event.deltaY * lines;
  const aside = (event.shiftKey ? event.deltaX + event.deltaY : event.deltaX) * lines;
  if (event.ctrlKey || event.metaKey) view.zoom(Math.exp(Math.max(-30, Math.min(30, down)) * .01), view.placeOf(event).x);
  else if (Math.abs(aside) > (event.shiftKey ? 0 : Math.abs(down))) view.moveBy(aside * view.scale.span / view.scale.plot);
  else return;
  event.preventDefault();
}

/**
 * Pointers on the picture. One that is held moves the run in time (a mouse scrolls the lanes too; for a finger the
 * browser does); two fingers zoom. A short touch, and a mouse that isn't held, tell what is at their place.
 */
class Pointers {
  constructor(view, canvas) {
    this.view = view;
    this.held = new Map();
    const on = (name, action) => canvas.addEventListener(name, action);
    on("pointerdown", event => this.down(event, canvas));
    on("pointermove", event => this.move(event));
    on("pointerup", event => this.up(event));
    on("pointercancel", event => this.leave(event));
    on("lostpointercapture", event => this.leave(event));
    on("pointerleave", event => { if (event.pointerType === "mouse") view.forget(); });
    on("dblclick", event => view.zoom(.4, view.placeOf(event).x));
  }

  down(event, canvas) {
    if (event.button > 0) return;
    canvas.setPointerCapture(event.pointerId);
    this.held.set(event.pointerId, event);
    this.first = this.held.size === 1 ? event : null;
    this.begin();
  }

  /** Remembers how the picture stands where a finger comes or goes. */
  begin() {
    const { from, to } = this.view.scale;
    this.start = { from, to, scroll: this.view.scrolled(), ...this.middle() };
  }

  /** The middle of the pointers that are held, and their distance. */
  middle() {
    const [one, two] = [...this.held.values()];
    if (!one) return { x: 0, y: 0, far: 0 };
    if (!two) return { ...this.view.placeOf(one), far: 0 };
    const a = this.view.placeOf(one), b = this.view.placeOf(two);
    return { x: (a.x + b.x) / 2, y: (a.y + b.y) / 2, far: Math.max(24, Math.hypot(a.x - b.x, a.y - b.y)) };
  }

  move(event) {
    if (!this.held.has(event.pointerId)) { this.view.point(event); return; }
    this.held.set(event.pointerId, event);
    if (this.first && this.moved(event) < 6) return;
    this.first = null;
    this.drag(event);
  }

  moved(event) { return Math.hypot(event.clientX - this.first.clientX, event.clientY - this.first.clientY); }

  drag(event) {
    const { view, start } = this, now = this.middle(), size = start.to - start.from;
    const shown = now.far ? size * start.far / now.far : size;
    const at = start.from + (start.x - Scale.LEFT) / view.scale.plot * size;
    const from = at - (now.x - Scale.LEFT) / view.scale.plot * shown;
    view.forget();
    view.move(from, from + shown);
    if (event.pointerType === "mouse") view.scrollTo(start.scroll + start.y - now.y);
  }

  up(event) {
    const short = this.first && this.held.size === 1 && this.moved(event) < 6;
    this.leave(event);
    if (short) this.view.point(event, event.pointerType !== "mouse");
  }

  leave(event) {
    if (!this.held.delete(event.pointerId)) return;
    this.first = null;
    this.begin();
  }
}

/** What each key does; `ask` is the field for a search. */
function keyActions(view, ask) {
  const part = share => () => view.moveBy(share * view.scale.span);
  const lanes = count => () => view.scrollBy(count * (view.lanes.shown.length ? view.lanes.shown[0].height : 0));
  const pages = count => () => view.scrollBy(count * view.room() * .9);
  return {
    "+": () => view.zoom(.5), "=": () => view.zoom(.5), "-": () => view.zoom(2), "0": () => view.showAll(),
    ArrowLeft: part(-.2), ArrowRight: part(.2), ArrowUp: lanes(-1), ArrowDown: lanes(1),
    PageUp: pages(-1), PageDown: pages(1), Home: () => view.scrollTo(0), End: () => view.scrollTo(view.lanes.height),
    n: () => view.stepFlag(1), p: () => view.stepFlag(-1), ".": () => view.stepFrame(1), ",": () => view.stepFrame(-1),
    "/": ask, Escape: () => view.forget(),
    a: () => view.cursors.put("A"), b: () => view.cursors.put("B"), c: () => view.cursors.set(null, null),
  };
}

function onKey(actions, event) {
  if (event.ctrlKey || event.metaKey || event.altKey || event.defaultPrevented) return;
  if (event.target.closest && event.target.closest("input, textarea, select, dialog")) return;
  if (["Enter", " "].includes(event.key) || !actions[event.key]) return;
  actions[event.key]();
  event.preventDefault();
}
