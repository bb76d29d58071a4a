/* About this page, behind a button and the key `?`: what its marks mean, its keys, and how long each save took to be shown. */

const PAGE_KEYS = [["1 to 4", "a part of the page"], ["Tab, Enter", "go to a line of a finding, a node, a file; open it"],
  ["?", "this help"]];

// The steps of a save in the words of who edits.
const STEP_WORDS = { read: "reading the files", "project apart": "working out the network", edits: "sending the changes",
  "started afresh": "starting cobench anew", "diagnostics and files": "checking, and making the files",
  lists: "what is wrong, and the tables", part: "simulating a first part",
  "its picture": "drawing it", trace: "simulating", picture: "drawing" };

const ADDRESS = "The address ends with what is shown: the part, and of the run from where to where in microseconds, " +
  "as in #run/120000-280000.";

class About {
  constructor(opener) {
    this.saves = element("ol", { class: "saves" });
    const close = button("Close", "close, key Esc", () => this.dialog.close());
    this.dialog = element("dialog", { class: "about", "aria-labelledby": "about-title" },
      element("div", { class: "bar" }, element("h2", { id: "about-title" }, "About this page"), close),
      element("p", {}, "It shows what cobench answers for the script as it was saved last. All editing is in your editor."),
      element("h3", {}, "Marks"), marksTable(),
      element("p", { class: "soft" }, "Marks are of the last save; the next one takes them away."),
      element("h3", {}, "Keys"), helpTable(PAGE_KEYS), element("h3", {}, "Keys, mouse and fingers of the run"),
      helpTable([...MOUSE, ...FINGERS, ...KEYS.filter(([key]) => key !== "?")]), element("p", { class: "soft" }, ADDRESS),
      element("h3", {}, "Saves"), this.saves);
    document.body.append(this.dialog);
    opener.addEventListener("click", () => this.open());
  }

  open() { if (!this.dialog.open) this.dialog.showModal(); }

  take(items, changed) {
    if (changed.has("ledger")) this.saves.replaceChildren(...(items.get("ledger") || []).slice().reverse().map(saveEntry));
  }
}

function marksTable() {
  const row = (mark, words) => element("tr", {}, element("td", {}, mark), element("td", {}, words));
  const line = kind => element("span", { class: "chip change" }, element("i", { class: kind }));
  return element("table", { class: "marks" }, row(element("mark", {}, "value"), "is new, or was another"),
    row(element("del", {}, "value"), "has gone, or is what was there before"),
    row(line("new"), "in the run: a frame that is new, or has other bytes"), row(line("moved"), "a frame that comes at another time alone"),
    row(line("gone"), "a frame that has gone"), row("pale", "isn't simulated yet, and of the save before"));
}

/** A save: how long it took until all of it was there, and what of the run is other. */
function saveEntry(save) {
  const files = save.files.join(", ") || "cobench", parts = `${counted(save.windows)} of ${several(save.ofWindows, "part")}`;
  const where = save.windows ? `${parts} of the run changed` : "the run is as it was";
  const made = element("li", {}, element("div", { class: "where" }, element("code", {}, save.clock), element("b", {}, files),
    element("span", { class: "soft" }, where), element("b", { class: "all" }, `${save.all.toLocaleString("en")} ms`)),
  element("div", { class: "soft" }, save.steps.map(([what, time]) => `${STEP_WORDS[what] || what} ${time} ms`).join(", ")));
  if (save.why) made.append(element("div", { class: "note" }, `cobench was started anew: ${save.why}.`));
  if (save.edits && save.edits.length) made.append(editList(save));
  return made;
}

/** The commands by which the network before became this one. */
function editList(save) {
  const more = save.count > save.edits.length ? [`and ${counted(save.count - save.edits.length)} more`] : [];
  const lines = save.edits.concat(more).join("\n");
  return element("details", {}, element("summary", {}, `what changed: ${several(save.count, "command")}`), element("pre", {}, lines));
}
