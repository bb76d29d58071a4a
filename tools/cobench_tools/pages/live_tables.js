/* Tables as the server gives them, and those of messages. */

/** What a cell is by its class: a number, or a short word that stays in one line, as bits 16-47. */
function kindOf(text, isNumber) {
  const kinds = [...isNumber ? ["number"] : [], .../^\S{1,12}$/.test(text) ? ["whole"] : []];
  return kinds.length ? { class: kinds.join(" ") } : {};
}

/**
 * A table: its columns, its rows, whether each column has numbers, and which rows are marked as new; by place what a marked
 * row was before, and the rows that have gone, each with the number of rows before it.
 */
function tableOf(columns, rows, numbers, marks, was = {}, gone = []) {
  const head = element("tr", {}, ...columns.map((column, n) => element("th", { scope: "col", ...kindOf(column, numbers[n]) }, column)));
  const marked = new Set(marks), body = rows.map((cells, place) => rowOf(cells, numbers, marked.has(place) ? "new" : "", was[place]));
  for (const [place, cells] of gone.slice().reverse()) body.splice(place, 0, rowOf(cells, numbers, "gone"));
  return element("div", { class: "wide", tabindex: "0" }, element("table", {}, element("thead", {}, head), element("tbody", {}, ...body)));
}

/** A row; cells that were otherwise have that before them. */
function rowOf(cells, numbers, kind, was) {
  const isOther = n => was && was[n] !== cells[n];
  const both = (text, n) => isOther(n) ? [element("del", {}, was[n]), " ", element("mark", {}, text)] : [text];
  const columns = cells.map((text, n) => element("td", kindOf(text, numbers[n]), ...both(text, n)));
  return element("tr", kind ? { class: was ? "changed" : kind } : {}, ...columns);
}

class MessagesPart {
  static KEYS = ["messages", "signals", "heartbeats", "left-out"];

  constructor() {
    this.name = "messages";
    this.title = "Messages";
    this.element = element("section", { class: "part" });
    this.sections = new Map(MessagesPart.KEYS.map(key => [key, element("div", {})]));
    this.element.append(...this.sections.values());
  }

  take(items, changed) {
    const counts = { gone: 0, changed: 0, fresh: 0 };
    for (const [key, section] of this.sections) {
      const table = items.get("table/" + key);
      if (changed.has("table/" + key)) this.fill(section, table);
      if (table) countMarks(counts, table);
    }
    this.badge(changesWords(counts), "changed");
  }

  fill(section, table) {
    section.hidden = !table;
    if (!table) return;
    const scrolled = section.querySelector(".wide"), left = scrolled ? scrolled.scrollLeft : 0;
    section.replaceChildren(element("h2", {}, table.title),
      table.rows.length + table.gone.length ? tableOf(table.columns, table.rows, table.numbers, table.marks, table.was, table.gone)
        : element("p", { class: "soft" }, "None."));
    const wide = section.querySelector(".wide");
    if (wide) wide.scrollLeft = left;
    if (table.below) section.append(element("p", { class: "soft" }, table.below));
  }
}

/** Counts what the last save has changed in a table. */
function countMarks(counts, { marks, was, gone }) {
  const changed = Object.keys(was).length;
  counts.gone += gone.length;
  counts.changed += changed;
  counts.fresh += marks.length - changed;
}
