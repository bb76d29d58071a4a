/* The parts of the page as tabs. Where there is room the run stands beside the others or below them, and is none of them. */

const ROOM = "(min-width: 1500px), (min-width: 700px) and (min-height: 880px)";     // as in live.css

class Tabs {
  constructor(parts, list, panels) {
    this.parts = parts;
    this.tabs = parts.map((part, number) => this.tab(part, number));
    list.append(...this.tabs);
    panels.append(...parts.map(part => part.element));
    list.addEventListener("keydown", event => this.onKey(event));
    this.onChoose = () => {};
    this.wide = matchMedia(ROOM);
    this.wide.addEventListener("change", () => this.choose(this.chosen));
    this.choose(0);
  }

  tab(part, number) {
    const made = element("button", { type: "button", role: "tab", id: `tab-${part.name}`, "aria-controls": `part-${part.name}` },
      part.title, element("span", { class: "badge" }));
    part.element.id = `part-${part.name}`;
    part.element.setAttribute("role", "tabpanel");
    part.element.setAttribute("aria-labelledby", made.id);
    part.element.tabIndex = 0;
    part.badge = (words, kind) => badge(made.lastChild, words, kind);
    made.addEventListener("click", () => this.choose(number));
    return made;
  }

  /** Shows a part; beside it the run, where there is room. */
  choose(number) {
    const isBeside = part => this.wide.matches && part.name === "run";
    if (isBeside(this.parts[number])) number = 0;
    this.chosen = number;
    document.body.classList.toggle("beside", this.wide.matches);
    this.parts.forEach((part, n) => {
      const is = n === number;
      this.tabs[n].setAttribute("aria-selected", String(is));
      this.tabs[n].tabIndex = is ? 0 : -1;
      this.tabs[n].hidden = isBeside(part);
      if (is && this.tabs[n].scrollIntoView) this.tabs[n].scrollIntoView({ block: "nearest", inline: "nearest" });
      part.element.hidden = !is && !isBeside(part);
      if (!part.element.hidden && part.shown) part.shown();
    });
    this.onChoose();
  }

  onKey(event) {
    const step = { ArrowRight: 1, ArrowDown: 1, ArrowLeft: -1, ArrowUp: -1 }[event.key];
    if (!step) return;
    let next = this.chosen;
    do next = (next + step + this.parts.length) % this.parts.length; while (this.tabs[next].hidden);
    this.choose(next);
    this.tabs[next].focus();
    event.preventDefault();
  }
}

/** Puts words into a badge; none hides it. */
function badge(place, words, kind = "") {
  place.textContent = words;
  place.className = "badge " + kind;
  place.hidden = !words;
}
