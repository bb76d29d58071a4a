/* The page that follows a script. */

class Live {
  constructor({ title, opens }) {
    this.title = title;
    document.getElementById("title").textContent = title;
    this.status = document.getElementById("status");
    this.voice = document.getElementById("voice");
    this.about = new About(document.getElementById("about"));
    this.parts = [new WrongPart(new Places(opens)), new NodesPart(), new MessagesPart(), new RunPart()];
    [this.wrong, , , this.run] = this.parts;
    this.tabs = new Tabs(this.parts, document.getElementById("tabs"), document.getElementById("parts"));
    this.isOver = true;
    this.cost = "";
    this.keepAddress();
    this.run.onHelp = () => this.about.open();
    this.items = new Items((changed, whole) => this.take(changed, whole), () => this.lost());
    addEventListener("keydown", event => this.onKey(event));
  }

  keepAddress() {
    this.address = new Address(this);
    this.tabs.onChoose = this.run.onView = this.run.timeline.onMove = () => this.address.keep();
  }

  /** Items are other: each part takes what is its own. What a save changes is new until the next one begins, which may come whole. */
  take(changed, whole) {
    const began = performance.now(), status = this.items.get("status"), run = this.items.get("run");
    document.body.classList.toggle("held", Boolean(run) && !isWhole(run));
    if (whole) for (const part of this.parts) if (part.end) { part.end(null); part.begin(); }
    if (this.isOver && status && (status.state === "working" || changed.has("ledger"))) this.begin();
    for (const part of [...this.parts, this.about]) part.take(this.items, changed);
    if (whole) this.parts[1].begin();
    this.address.arrive();
    if (changed.has("ledger")) this.end(began, whole);
    if (status) this.say(status);
  }

  begin() {
    this.isOver = false;
    for (const part of this.parts) if (part.begin) part.begin();
  }

  end(began, whole) {
    const last = this.lastSave();
    this.isOver = true;
    for (const part of this.parts) if (part.end) part.end(this.items);
    requestAnimationFrame(() => {
      const all = last ? Math.max(0, Date.now() - last.saved) : 0;
      this.cost = !last || whole || !last.saved ? "" : `, ${counted(all)} ms after the save`;
      this.say(this.items.get("status"));
    });
    if (!whole) this.voice.textContent = this.wrong.spoken();
  }

  lastSave() {
    const saves = this.items && this.items.get("ledger");
    return saves && saves[saves.length - 1];
  }

  /** What is the matter; a fault is spoken too, dims the page, and says of when that is. */
  say({ state, words, waits, clock }) {
    const last = this.lastSave(), works = waits ? `Waits for the ${waits} ..` : "Works ..";
    const fault = words + (last ? `; this is what it said last, at ${last.clock}` : "");
    this.status.className = state;
    this.status.textContent = { well: `Up to date ${clock}${this.cost}. ${words}`, working: works, fault }[state];
    document.body.classList.toggle("stale", state === "fault" && Boolean(last));
    if (state === "fault") this.voice.textContent = fault;
    this.run.wait(Boolean(waits) && state === "working");
    this.name(state);
  }

  /** The name of the page in the tabs of the browser: how much is wrong first. */
  name(state) {
    const first = state === "fault" ? "not up to date" : this.wrong.counts || "";
    document.title = first ? `${first} · ${this.title}` : `${this.title} · cobench live`;
  }

  lost() { this.say({ state: "fault", words: "cobtool live has ended, or can't be reached", waits: "", clock: "" }); }

  /** 1 to 4 choose a part, ? says what there is to know of the page. */
  onKey(event) {
    if (event.ctrlKey || event.metaKey || event.altKey || event.target.closest("input, select, textarea, dialog")) return;
    const number = "1234".indexOf(event.key);
    if (event.key === "?") this.about.open();
    else if (number >= 0 && !this.tabs.tabs[number].hidden) this.tabs.choose(number);
    else return;
    event.preventDefault();
  }
}

const live = new Live(contentOf("content"));
