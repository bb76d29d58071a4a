/* The page with a timeline alone. */

function summaryOf(content, trace) {
  const notes = trace.flags.filter(flag => FLAG_SAYS[flag.kind] === "noted by the manager").length;
  const planned = trace.lanes.some(lane => lane.planned);
  const frames = trace.kinds.reduce((sum, _, kind) => sum + trace.countOf(kind), 0);
  const seconds = (trace.end / 1e6).toLocaleString("en", { maximumFractionDigits: 6 });
  const left = content.left ? `, and ${counted(content.left)} more that aren't drawn` : "";
  const what = planned ? `${several(frames, "recorded frame")}${left}` : `${several(frames, "frame")} and ${several(notes, "note")}`;
  return `${what} in ${seconds} s, ${1000 / content.bit} kbit/s`;
}

/** What is wrong with the script, line by line. */
function wrongLines({ wrong }) {
  return element("ol", { class: "lines" }, ...(wrong || []).map(([severity, line]) => element("li", { class: severity }, line)));
}

/** The same behind a button. */
function wrongBox(content) {
  const made = popUp(content.counts.split(";")[0], "what is wrong with the script", wrongLines(content));
  if (content.wrong.some(([severity]) => severity === "error")) made.firstChild.classList.add("wrong");
  return made;
}

/** What stands above the run on paper. */
function paperHead(content, summary) {
  const lines = [summary, content.made, content.counts].filter(Boolean).flatMap(each => each.split("\n"));
  return element("header", {}, element("h1", {}, content.title), ...lines.map(each => element("p", {}, each)), wrongLines(content));
}

/** The part of the run that the address asks for: #FROM-TO in microseconds. */
function goToAddress(timeline) {
  const part = location.hash.match(/^#(\d+)-(\d+)$/);
  if (part && +part[2] > +part[1]) timeline.move(+part[1], +part[2]);
}

/** Keeps the part that is shown in the address, once it has stood still for a moment. */
function keepAddress(timeline) {
  let waits = 0;
  timeline.onMove = () => {
    clearTimeout(waits);
    waits = setTimeout(() => {
      const { scale } = timeline, part = `#${Math.max(0, Math.round(scale.from))}-${Math.round(scale.to)}`;
      history.replaceState(null, "", scale.isWhole() ? location.pathname + location.search : part);
    }, 400);
  };
}

function openPage() {
  const content = contentOf("content"), help = helpBox(), timeline = new Timeline(document.getElementById("timeline"), document, help);
  document.title = content.title + " · trace";
  timeline.bar.element.prepend(document.querySelector("header"));
  document.getElementById("title").textContent = content.title;
  timeline.show(content);
  document.getElementById("summary").textContent = summaryOf(content, timeline.trace);
  document.getElementById("made").textContent = content.made || "";
  document.getElementById("unknown").hidden = content.script;
  if (content.wrong && content.wrong.length) document.querySelector("header").append(wrongBox(content));
  goToAddress(timeline);
  printWhole(timeline, () => content.title, () => paperHead(content, summaryOf(content, timeline.trace)));
  keepAddress(timeline);
  addEventListener("hashchange", () => goToAddress(timeline));
  document.addEventListener("keydown", event => onKey({ "?": () => openBox(help) }, event));
  return timeline;
}

const timeline = openPage();
