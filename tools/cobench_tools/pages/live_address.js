/* The address ends with what is shown: #PART, /frames where the run is a table, and /FROM-TO of the run in microseconds. */

class Address {
  static FORM = /^#([a-z]*)(\/frames)?(?:\/?(\d+)-(\d+))?$/;

  constructor(live) {
    this.live = live;
    this.wanted = null;         // the part of the run that is shown once it is there
    this.waits = 0;
    addEventListener("hashchange", () => { this.go(); this.arrive(); });
    this.go();
  }

  /** Goes to what the address says. */
  go() {
    const [, part, frames, from, to] = location.hash.match(Address.FORM) || [], { live } = this;
    const number = live.parts.findIndex(each => each.name === (part || (from ? "run" : "")));
    if (number >= 0) live.tabs.choose(number);
    if (number >= 0) live.run.view(frames ? 1 : 0);
    this.wanted = Number(to) > Number(from) ? [Number(from), Number(to)] : null;
  }

  /** Shows the wanted part of the run, once that is there. */
  arrive() {
    if (!this.wanted || !this.live.run.timeline.trace) return;
    this.live.run.timeline.move(...this.wanted);
    this.wanted = null;
  }

  /** Keeps what is shown in the address, once it has stood still for a moment. */
  keep() {
    clearTimeout(this.waits);
    this.waits = setTimeout(() => {
      if (!this.wanted) history.replaceState(null, "", location.pathname + location.search + this.text());
    }, 400);
  }

  text() {
    const { run, tabs, parts } = this.live, { scale, trace } = run.timeline;
    const part = trace && !scale.isWhole() ? `/${Math.max(0, Math.round(scale.from))}-${Math.round(scale.to)}` : "";
    const shown = parts[tabs.chosen].name + (run.frames.element.hidden ? "" : "/frames") + part;
    return shown === parts[0].name ? "" : "#" + shown;
  }
}
