/* Printing: all of the run, piece by piece, each as high as half a page and as wide as it is. */

const PRINTED = { wide: 1060, gutter: 132, high: 600, bars: 72, most: 60, sharp: 2 };

/** The pieces of a run: the part that is in view goes on one piece, and all of the run on as many as it takes. */
function piecesOf(view) {
  const { scale, trace } = view, span = Math.max(scale.isWhole() ? scale.all : scale.span, scale.all / PRINTED.most);
  const count = Math.max(1, Math.ceil(trace.end / span - 1e-9));
  return Array.from({ length: count }, (_, n) => [n * span, (n + 1) * span]);
}

/** The lanes of a view as low as they can be. */
function lowLanes(view, shown) {
  const lanes = new Lanes();
  lanes.compact = view.lanes.compact;
  lanes.shown = shown;
  lanes.layOut(0);
  return lanes;
}

/** The lanes in groups that have room on a piece. */
function groupsOf(view) {
  const groups = [];
  let high = Infinity;
  for (const lane of lowLanes(view, view.lanes.shown.map(each => ({ ...each }))).shown) {
    if (high + lane.height > PRINTED.high - AXIS - PRINTED.bars) { groups.push([]); high = 0; }
    groups[groups.length - 1].push({ ...lane });
    high += lane.height;
  }
  return groups;
}

/** What the functions that draw want of a view, for a piece of paper. */
class PrintedView {
  constructor(view, from, to, lanes) {
    const { trace, hidden, cursors } = view;
    Object.assign(this, { trace, hidden, colours: colours(), told: null, at: null });
    this.scale = new Scale();
    this.scale.setEnd(Math.max(to, trace.end));
    this.scale.setWidth(PRINTED.wide - PRINTED.gutter);
    this.scale.from = from;
    this.scale.to = to;
    this.lanes = lowLanes(view, lanes);
    this.height = AXIS + this.lanes.height + PRINTED.bars;
    this.cursors = new Cursors(this);
    this.cursors.at = cursors.at;
  }

  bars() { return PRINTED.bars; }
  room() { return this.lanes.height; }
  scrolled() { return 0; }
  shows(kind) { return !this.hidden.has(kind); }
  busy(step) { return this.trace.busyIn(step, kind => this.shows(kind)); }
  draw() {}
  showMost(most, floor, high) { this.most = [most, floor, high]; }
}

/** A piece as a picture. */
function printedPiece(view, from, to, lanes) {
  const paper = new PrintedView(view, from, to, lanes), canvas = element("canvas", {}), ticks = paper.scale.ticks();
  canvas.width = PRINTED.wide * PRINTED.sharp;
  canvas.height = paper.height * PRINTED.sharp;
  const pen = canvas.getContext("2d");
  pen.setTransform(PRINTED.sharp, 0, 0, PRINTED.sharp, 0, 0);
  pen.textBaseline = "middle";
  pen.fillStyle = paper.colours.paper;
  pen.fillRect(0, 0, PRINTED.wide, paper.height);
  for (const lane of lanes) printName(pen, paper, lane);
  pen.save();
  pen.beginPath();
  pen.rect(PRINTED.gutter, 0, PRINTED.wide - PRINTED.gutter, paper.height);
  pen.clip();
  pen.translate(PRINTED.gutter, 0);
  drawLanes(pen, paper, ticks);
  drawAxis(pen, paper, ticks);
  drawBars(pen, paper, paper.height - PRINTED.bars);
  paper.cursors.draw(pen);
  pen.restore();
  printFoot(pen, paper);
  return canvas;
}

function printName(pen, paper, lane) {
  pen.save();
  pen.beginPath();
  pen.rect(0, AXIS + lane.top, PRINTED.gutter - 4, lane.height);
  pen.clip();
  write(pen, lane.name, 4, AXIS + lane.top + lane.height / 2 - (lane.height > 30 ? 7 : 0), paper.colours.ink, 12);
  if (lane.height > 30) write(pen, lane.title, 4, AXIS + lane.top + lane.height / 2 + 8, paper.colours.soft, 10);
  pen.restore();
  pen.fillStyle = paper.colours.line;
  pen.fillRect(0, AXIS + lane.top + lane.height - 1, PRINTED.gutter, 1);
}

function printFoot(pen, paper) {
  const [most, floor, high] = paper.most, top = paper.height - PRINTED.bars;
  write(pen, "bus load in each 10 ms", 4, top + PRINTED.bars / 2, paper.colours.ink, 10);
  write(pen, percent(most), PRINTED.gutter - 34, top + floor - high, paper.colours.soft, 10);
  write(pen, "0", PRINTED.gutter - 34, top + floor, paper.colours.soft, 10);
}

/** All pieces of a run, each with its caption, below what stands above them. */
function printedPages(view, title, head) {
  const made = element("div", { class: "printed" }, head, view.bar.legend.cloneNode(true));
  for (const [from, to] of piecesOf(view)) {
    for (const lanes of groupsOf(view)) {
      const words = `${title}: ${axisLabel(from, 1000)} to ${axisLabel(Math.min(to, view.trace.end), 1000)} ms`;
      made.append(element("figure", {}, element("figcaption", {}, words), printedPiece(view, from, to, lanes)));
    }
  }
  return made;
}

/** Has the page print all of its run, in the colours of paper. */
function printWhole(view, title, head) {
  let made = null;
  addEventListener("beforeprint", () => {
    document.documentElement.classList.add("on-paper");
    made = printedPages(view, title(), head());
    document.body.append(made);
  });
  addEventListener("afterprint", () => {
    document.documentElement.classList.remove("on-paper");
    if (made) made.remove();
  });
}
