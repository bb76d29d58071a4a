/* The nodes, with the values that their files set and the files themselves; what the last save changed is marked. */

class NodesPart {
  constructor() {
    this.name = "nodes";
    this.title = "Nodes";
    this.search = element("input", { type: "search", placeholder: "node", "aria-label": "search for a node by name or number" });
    this.list = element("div", { class: "nodes" });
    this.none = element("p", { class: "soft", hidden: "" }, "There are no nodes.");
    this.isChanged = element("input", { type: "checkbox" });
    this.bar = element("div", { class: "bar" }, this.search, element("label", {}, this.isChanged, " changed"));
    this.element = element("section", { class: "part" }, this.bar, this.none, this.list);
    this.cards = new Map();
    this.gone = new Map();
    for (const field of [this.search, this.isChanged]) field.addEventListener("input", () => this.filter());
  }

  take(items, changed) {
    if (!["node/", "run", "boots"].some(start => touches(changed, start))) return;
    const nodes = items.all("node/"), run = items.get("run"), boots = items.get("boots");
    for (const [number, card] of this.cards) if (!items.get("node/" + number)) this.leave(number, card);
    for (const node of nodes) this.put(node, changed.has("node/" + node.node));
    this.inOrder();
    if (run) for (const node of nodes) this.cards.get(node.node).about(run, boots);
    this.none.hidden = this.cards.size > 0;
    this.bar.hidden = nodes.length < 8;
    const fresh = nodes.filter(each => each.isNew).length;
    this.badge(changesWords({ gone: this.gone.size, changed: nodes.filter(isMarked).length - fresh, fresh }), "changed");
    this.filter();
  }

  /** A node has gone: it stays struck through until the next save. */
  leave(number, card) {
    this.cards.delete(number);
    this.gone.set(number, card);
    card.leave();
  }

  begin() {
    for (const card of this.gone.values()) card.element.remove();
    this.gone.clear();
  }

  put(node, isOther) {
    const known = this.cards.get(node.node), card = known || new NodeCard();
    if (!known) this.cards.set(node.node, card);
    if (isOther || !known) card.take(node);
  }

  /** The nodes by their numbers, those that have gone among them; what stands in its place isn't touched. */
  inOrder() {
    const all = [...this.cards.values(), ...this.gone.values()].sort((a, b) => a.node.node - b.node.node);
    all.forEach((card, place) => {
      if (this.list.children[place] !== card.element) this.list.insertBefore(card.element, this.list.children[place] || null);
    });
  }

  filter() {
    const wanted = this.search.value.trim().toLowerCase();
    for (const card of this.cards.values())
      card.element.hidden = !card.fits(wanted) || this.isChanged.checked && !isMarked(card.node);
  }
}

const isMarked = node => node.isNew || node.marks.length > 0 || node.values.some(isChanged);

/** A node: a line on it, and below that, where it is open, its values and files. */
class NodeCard {
  constructor() {
    this.state = element("span", { class: "state chip of-run" });
    this.name = element("b", {});
    this.number = element("span", { class: "number" });
    this.booted = element("span", { class: "soft booted of-run" });
    this.sheet = element("span", { class: "soft sheet" });
    this.tag = element("span", { class: "tag" });
    this.body = element("div", { class: "body" });
    this.element = element("details", { class: "node" },
      element("summary", {}, this.number, this.name, this.tag, this.state, this.booted, this.sheet), this.body);
    this.element.addEventListener("toggle", () => this.fill());
  }

  fits(wanted) { return !wanted || this.node.name.toLowerCase().includes(wanted) || String(this.node.node) === wanted; }

  take(node) {
    this.node = node;
    this.number.textContent = node.node;
    this.name.textContent = node.name;
    this.sheet.textContent = node.sheet + (node.need === "mandatory" ? ", mandatory" : "");
    badge(this.tag, node.isNew ? "new" : changesText(node), "tag");
    this.fill();
  }

  /** It has gone: its line stays, and can't be opened. */
  leave() {
    this.element.open = false;
    this.element.classList.add("gone");
    this.element.inert = true;
    this.booted.textContent = this.state.textContent = "";
    badge(this.tag, "gone", "tag");
  }

  /** What the run shows of it. What goes by all of the run stays as it was until that is there. */
  about(run, boots) {
    const states = run.states[this.node.node];
    if (!states || !isWhole(run)) {
      if (!this.shown) this.booted.textContent = this.state.textContent = "not known yet";
      return;
    }
    const last = run.stateNames[states[states.length - 1][1]];
    const time = boots ? boots.times[this.node.node] : undefined, isManager = this.node.need === "manager";
    const shown = `${last} ${time} ${isManager}`;
    if (shown === this.shown) return;
    this.shown = shown;
    this.state.replaceChildren(element("i", { class: last, style: `background: var(--${last})` }), last);
    this.state.title = "state at the end of the run";
    this.booted.textContent = isManager ? "the manager" : time === undefined ? "not configured" : `configured at ${shownTime(time)}`;
    this.element.classList.toggle("unconfigured", time === undefined && !isManager);
  }

  fill() {
    if (!this.element.open) { this.body.replaceChildren(); return; }
    const { node } = this, folded = [...this.body.querySelectorAll("details")].map(each => each.open);
    const scrolled = this.body.querySelector("pre"), top = scrolled ? scrolled.scrollTop : 0;
    this.body.replaceChildren(valuesTable(node.values.filter(value => !isOfPdos(value))), pdoPart(node.values.filter(isOfPdos)),
      filePart("DCF", `${node.node}.dcf`, `${node.file}.dcf`, dcfText(node)),
      filePart("Concise DCF", `${node.node}.bin`, `${node.file}.bin`, bytesText(node.bytes)));
    this.body.querySelectorAll("details").forEach((each, n) => {
      each.open = folded[n] === undefined ? each.classList.contains("marked") : folded[n];
    });
    const mark = this.body.querySelector("mark"), text = this.body.querySelector("pre");
    text.scrollTop = mark ? mark.offsetTop - 60 : top;
  }
}

function changesText(node) {
  const changed = node.values.filter(isChanged).length;
  return changed ? several(changed, "value") + " changed" : node.marks.length ? "changed" : "";
}

const isChanged = ([, , , was]) => was !== null;
const isOfPdos = ([entry]) => /^1[4-9AB]/.test(entry);

/** Values that the files set; those that the last save changed stand first, beside what they were. */
function valuesTable(values) {
  const rows = values.filter(isChanged).concat(values.filter(value => !isChanged(value)));
  if (!rows.length) return element("p", { class: "soft" }, "Its files set no value but those of PDOs.");
  const hasOld = rows.some(isChanged);
  const columns = ["Entry", "Name", "Value"].concat(hasOld ? ["Before"] : []);
  const marks = rows.map(([, , , was], n) => was === null ? -1 : n);
  return tableOf(columns, rows.map(([entry, name, value, was]) => [entry, name, value].concat(hasOld ? [was === null ? "" : was] : [])),
    [false, false, true, true], marks);
}

/** The values of PDO objects, which messages make. */
function pdoPart(values) {
  const marked = values.some(isChanged);
  return element("div", { class: "file", ...(values.length ? {} : { hidden: "" }) },
    element("details", marked ? { class: "marked" } : {},
      element("summary", {}, `PDO objects, which messages make: ${several(values.length, "value")}`), valuesTable(values)));
}

/** A file of a node: a button that saves it, and its text. */
function filePart(title, path, name, text) {
  const link = element("a", { class: "button", href: `files/${path}${location.search}`, download: name }, "Save " + name);
  const marked = text.querySelector("mark") ? { class: "marked" } : {};
  return element("div", { class: "file" }, element("details", marked, element("summary", {}, title), text), link);
}

/** The lines of a DCF; those that are new are marked, with what they were. */
function dcfText(node) {
  const made = element("pre", { tabindex: "0" }), marks = new Map(node.marks);
  let plain = [];
  const flush = () => { if (plain.length) made.append(plain.join("\n") + "\n"); plain = []; };
  node.dcf.forEach((line, place) => {
    if (!marks.has(place)) { plain.push(line); return; }
    flush();
    const was = marks.get(place);
    made.append(element("mark", {}, line), element("span", { class: "was" }, was === null ? "  new" : `  was ${was}`), "\n");
  });
  flush();
  return made;
}

function bytesText(bytes) {
  const lines = (bytes.match(/.{1,32}/g) || []).map(spaced);
  return element("pre", { tabindex: "0" }, lines.join("\n"));
}
