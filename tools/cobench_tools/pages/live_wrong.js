/* What is wrong, in the words of `cobtool check`. */

/** A line of a file as a button: it opens in the editor where there is one, else FILE:LINE is copied. */
class Places {
  constructor(opens) { this.opens = opens; }

  button({ file, line }) {
    const title = this.opens ? "open this line in the editor" : "copy FILE:LINE";
    const made = element("button", { type: "button", class: "link place", title, "data-place": `${file}:${line}` }, `${file}:${line}`);
    made.addEventListener("click", async () => this.say(made, await (this.opens ? this.open(file, line) : this.copy(file, line))));
    return made;
  }

  /** Says for a moment beside the button what came of it. */
  say(made, words) {
    made.dataset.said = words;
    document.getElementById("voice").textContent = words;
    setTimeout(() => { delete made.dataset.said; }, 2000);
  }

  async open(file, line) {
    const asked = new URLSearchParams(location.search);
    asked.set("file", file);
    asked.set("line", line);
    try {
      return await (await fetch("open?" + asked, { method: "POST" })).text();
    } catch (error) {
      return "cobtool live can't be reached";
    }
  }

  async copy(file, line) {
    try {
      await navigator.clipboard.writeText(`${file}:${line}`);
      return "copied";
    } catch (error) {
      return "the browser doesn't let it be copied";
    }
  }
}

class WrongPart {
  constructor(places) {
    this.name = "wrong";
    this.title = "Wrong";
    this.places = places;
    this.summary = element("p", { class: "summary" });
    this.list = element("ol", { class: "findings" });
    this.accepted = element("ol", { class: "findings" });
    this.acceptedTitle = element("summary", {});
    this.folded = element("details", { class: "accepted", hidden: "" }, this.acceptedTitle, this.accepted);
    this.element = element("section", { class: "part" }, this.summary, this.list, this.folded);
    this.known = this.seen = null;
  }

  take(items, changed) {
    if (!changed.has("wrong") && !changed.has("boots") && !changed.has("ledger")) return;
    const { errors, warnings, findings } = items.get("wrong") || { errors: 0, warnings: 0, findings: [] };
    const boots = items.get("boots"), open = findings.filter(each => !each.accepted), accepted = findings.filter(each => each.accepted);
    const gone = this.gone(findings), changes = changesWords({ gone: gone.length, fresh: open.filter(each => this.isNew(each)).length });
    const booted = element("span", { class: "of-run" }, boots ? sentence(boots.text) : "");
    this.summary.replaceChildren(countsText(errors, warnings) + " ", booted,
      changes ? element("span", { class: "tag" }, changes) : "");
    this.summary.className = "summary " + (errors ? "wrong" : warnings ? "warned" : "well");
    this.list.replaceChildren(...open.map(each => this.finding(each)), ...gone.map(each => this.finding(each, true)));
    this.folded.hidden = !accepted.length;
    this.acceptedTitle.textContent = `${counted(accepted.length)} accepted, by --allow`;
    this.accepted.replaceChildren(...accepted.map(each => this.finding(each)));
    this.badge(errors ? String(errors) : warnings ? String(warnings) : "✓", errors ? "wrong" : warnings ? "warned" : "well");
    this.counts = errors ? several(errors, "error") : warnings ? several(warnings, "warning") : "";
  }

  /** A save is over: what is there now isn't new at the next one. */
  end(items) {
    const wrong = items && items.get("wrong");
    this.seen = items && new Map((wrong ? wrong.findings : []).filter(each => !each.accepted).map(each => [wordsOf(each), each]));
  }

  begin() { this.known = this.seen; }
  spoken() { return this.summary.textContent; }
  isNew(each) { return Boolean(this.known) && !this.known.has(wordsOf(each)); }

  /** What was wrong before the last save, and isn't any more. */
  gone(findings) {
    const now = new Set(findings.map(wordsOf));
    return [...this.known || []].filter(([words]) => !now.has(words)).map(([, each]) => each);
  }

  finding(each, isGone = false) {
    const mark = isGone ? "gone" : !each.accepted && this.isNew(each) ? "new" : "", who = each.who ? each.who + ": " : "";
    const made = element("li", { class: `${each.severity} ${mark}${OF_BOOTS.includes(each.code) ? " of-run" : ""}` },
      element("div", { class: "where" }, element("b", {}, each.severity), this.places.button(each),
        mark ? element("span", { class: "tag" }, mark) : "", element("span", { class: "code" }, each.code)),
      element("div", { class: "text" }, who + each.text));
    made.append(...each.notes.map(note => element("div", { class: "note" }, this.places.button(note), " " + note.text)));
    return made;
  }
}

const OF_BOOTS = ["failed", "unconfigured", "emergency", "not-operational", "never-sent"];     // codes of what the run tells

/** What says that a finding is the same as one before the save. */
const wordsOf = each => each.words + each.text;

/** Words as a sentence. */
const sentence = words => words.charAt(0).toUpperCase() + words.slice(1) + ".";

function countsText(errors, warnings) {
  if (!errors && !warnings) return "Nothing is wrong.";
  return `${errors ? several(errors, "error") : "No errors"}, ${warnings ? several(warnings, "warning") : "no warnings"}.`;
}
