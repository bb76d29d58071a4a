/* Two cursors that stay, and the time between them. */

class Cursors {
  constructor(view) {
    this.view = view;
    this.at = { A: null, B: null };
    this.words = element("output", { class: "between" });
    this.clear = button("×", "take the cursors away, key c", () => this.set(null, null));
    const set = name => button(name, `cursor ${name} at the place told last, key ${name.toLowerCase()}`, () => this.put(name));
    this.element = element("span", { class: "cursors", role: "group", "aria-label": "cursors" }, set("A"), set("B"), this.words, this.clear);
    this.say();
  }

  /** Puts a cursor where the pointer is, or at what was told last. */
  put(name) {
    const { view } = this, time = view.at !== null ? view.at : view.told ? view.told.time : view.scale.from + view.scale.span / 2;
    this.at[name] = Math.min(Math.max(Math.round(time), 0), view.trace.end);
    this.say();
    view.draw();
  }

  set(a, b) {
    this.at = { A: a, B: b };
    this.say();
    this.view.draw();
  }

  say() {
    const { A, B } = this.at, both = A !== null && B !== null, between = both ? Math.abs(B - A) : 0;
    this.words.textContent = both ? `${shownTime(between)} between` + (between ? ` (${(1e6 / between).toLocaleString("en", { maximumSignificantDigits: 4 })} Hz)` : "")
      : A !== null ? `A at ${shownTime(A)}` : B !== null ? `B at ${shownTime(B)}` : "";
    this.words.title = both ? `A at ${shownTime(A)}, B at ${shownTime(B)}` : "";
    this.clear.hidden = A === null && B === null;
  }

  draw(pen) {
    const { view } = this, { scale, colours } = view;
    for (const [name, time] of Object.entries(this.at)) {
      const x = time === null ? -1 : scale.x(time);
      if (x < 0 || x > scale.width) continue;
      pen.fillStyle = colours.accent;
      pen.fillRect(Math.round(x) - .5, AXIS - 14, 1.5, view.height);
      pen.fillRect(Math.round(x) - 7, AXIS - 14, 14, 13);
      write(pen, name, Math.round(x) - widthOf(pen, name, 10.5) / 2, AXIS - 7, colours.paper, 10.5);
    }
  }
}
