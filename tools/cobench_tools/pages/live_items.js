/* What the server tells: items by name, each whole. */

class Items {
  /** `taken(changed, whole)` is called with the names of the items that are other, `lost()` where the server is gone.
      The feed asks for the word that the address of the page has. */
  constructor(taken, lost) {
    this.items = new Map();
    this.taken = taken;
    this.source = new EventSource("feed" + location.search);
    this.source.addEventListener("message", event => this.take(JSON.parse(event.data)));
    this.source.addEventListener("error", lost);
  }

  take({ whole, items }) {
    const changed = new Set(Object.keys(items));
    if (whole) { for (const name of this.items.keys()) changed.add(name); this.items.clear(); }
    for (const [name, content] of Object.entries(items)) {
      if (content === null) this.items.delete(name);
      else this.items.set(name, name.startsWith("window/") && content.of ? windowOf(content) : content);
    }
    this.taken(changed, whole);
  }

  get(name) { return this.items.get(name); }

  /** The items whose names begin so, in the order of the numbers behind it. */
  all(start) {
    const found = [...this.items].filter(([name]) => name.startsWith(start));
    return found.sort(([a], [b]) => a.slice(start.length) - b.slice(start.length)).map(([, content]) => content);
  }
}

/** Whether one of these names begins so. */
const touches = (changed, start) => [...changed].some(name => name.startsWith(start));

const TIME = 10, TEXT = 11, HEAD = 18, DATA = 19;   // where things end or begin in the line of a frame

/** A window of which the lines came as they stand in the trace, as the others have it. */
function windowOf({ at, lines, of }) {
  const time = [], sort = [], data = [];
  let now = at;
  for (const line of lines.split("\n")) {
    const then = Number(line.slice(0, TIME)), place = of[line.slice(TEXT)];
    time.push(then - now);
    sort.push(place === undefined ? of[line.slice(TEXT, HEAD)] : place);
    data.push(line.slice(DATA));
    now = then;
  }
  return { at, time, sort, data: data.join("").replaceAll(" ", ""), flags: [] };
}
