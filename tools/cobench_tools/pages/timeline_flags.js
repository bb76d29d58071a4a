/* Flags: what the manager notes, emergencies, and events of the scenario. */

const FLAG_COLOURS = { configured: "well", lost: "warning", failed: "wrong", emergency: "wrong", recovered: "well", event: "event",
  deviation: "wrong", expected: "wrong" };
const FLAG_SAYS = { configured: "noted by the manager", lost: "noted by the manager", failed: "noted by the manager",
  emergency: "emergency message", recovered: "emergency message", event: "event of the scenario",
  deviation: "not as planned", expected: "as planned" };

/** Draws the flags of a lane that are in view: plain ones first, so that trouble stands above them. */
function drawFlags(pen, view, lane) {
  const drawn = flagsInView(view.scale, lane), labels = placeLabels(pen, view.scale, drawn);
  for (const { flag, at } of drawn) drawPole(pen, view, lane, flag, at);
  for (const trouble of [false, true])
    for (const each of drawn) if (isTrouble(each.flag) === trouble) drawHead(pen, view, lane, each, labels.get(each));
}

/** The flags of a lane that can be told apart, each with its pixel; those that share a pixel are one, and the worst of them. */
function flagsInView(scale, lane) {
  const x = scale.x, found = [];
  for (let i = firstAt(lane.flagTimes, scale.time(-Scale.LEFT)); i < lane.flags.length; i++) {
    const flag = lane.flags[i], at = x(flag.time), last = found[found.length - 1];
    if (at > scale.right + 1) break;
    if (!last || at - last.at >= 1) found.push({ flag, at, others: [] });
    else if (isTrouble(flag) && !isTrouble(last.flag)) { last.others.push(last.flag); last.flag = flag; }
    else last.others.push(flag);
  }
  for (const each of found) each.label = each.flag.label + (each.others.length ? " +" + each.others.length : "");
  return found;
}

function drawPole(pen, view, lane, flag, at) {
  pen.globalAlpha = isTrouble(flag) ? .9 : .55;
  pen.fillStyle = view.colours[FLAG_COLOURS[flag.kind]];
  pen.fillRect(at - .5, lane.top + 2, isTrouble(flag) ? 2 : 1, lane.height - 5);
  pen.globalAlpha = 1;
}

/**
 * Where the words of flags go: behind their heads, those of trouble also before them, where nothing else stands.
 * Trouble has the first choice. Gives the left and the width of each that has a place.
 */
function placeLabels(pen, scale, drawn) {
  const taken = new Uint8Array(Math.ceil(scale.width) + 1), labels = new Map();
  const reserve = (from, to) => taken.fill(1, Math.max(0, Math.round(from)), Math.max(0, Math.round(to)));
  const isFree = (from, to) => from >= 0 && to < taken.length && taken.indexOf(1, Math.round(from)) >>> 0 >= Math.round(to);
  for (const { flag, at } of drawn) reserve(at - 6, at + (flag.kind === "event" ? 6 : 10));
  const trouble = drawn.filter(({ flag }) => isTrouble(flag)), plain = drawn.filter(({ flag }) => !isTrouble(flag));
  for (const each of trouble.concat(plain)) {
    const { flag, at } = each, wide = widthOf(pen, each.label, FLAG_SIZE);
    const behind = at + (flag.kind === "event" ? 8 : 11), before = at - 8 - wide;
    const left = isFree(behind, behind + wide + 4) ? behind : isTrouble(flag) && isFree(before - 4, at - 6) ? before : null;
    if (left === null) continue;
    reserve(left - 4, left + wide + 4);
    labels.set(each, { left, wide });
  }
  return labels;
}

/** The head of a flag, and its words where they have a place. */
function drawHead(pen, view, lane, { flag, at, label: words }, place) {
  const middle = lane.top + 1 + view.lanes.flags / 2, colour = view.colours[FLAG_COLOURS[flag.kind]];
  pen.fillStyle = colour;
  if (isTrouble(flag)) { drawTrouble(pen, view, words, at, middle, place); return; }
  pen.beginPath();
  for (const [right, down] of flag.kind === "event" ? DIAMOND : PENNANT) pen.lineTo(at + right, middle + down);
  if (flag.kind === "expected") outline(pen, colour); else pen.fill();
  if (place) write(pen, words, place.left, middle + .5, colour, FLAG_SIZE);
}

/** The outline of a flag, of what is planned. */
function outline(pen, colour) {
  pen.closePath();
  pen.strokeStyle = colour;
  pen.lineWidth = 1.2;
  pen.stroke();
}
const DIAMOND = [[0, -5], [5, 0], [0, 5], [-5, 0]], PENNANT = [[0, -4], [9, 0], [0, 4]], FLAG_SIZE = 10.5;

/** An emergency or a failed boot: a shield with its words, or a mark of exclamation where there is no room. */
function drawTrouble(pen, view, words, at, middle, place) {
  const ink = view.colours["wrong-ink"];
  const left = place ? Math.min(at, place.left - 5) : at - 6, right = place ? Math.max(at + 1, place.left + place.wide + 5) : at + 6;
  pen.beginPath();
  pen.roundRect(left, middle - 7, right - left, 14, place ? 4 : 6);
  pen.fill();
  if (place) write(pen, words, place.left, middle + .5, ink, FLAG_SIZE);
  else write(pen, "!", at - widthOf(pen, "!", 11) / 2, middle + .5, ink, 11);
}

/** The flag of a lane that is nearest to a pixel, if one is near, with those that it hides. */
function nearestFlag(view, lane, x) {
  let best = null, least = 11;
  for (const each of flagsInView(view.scale, lane)) {
    const far = Math.abs(each.at + 3 - x) - (isTrouble(each.flag) ? 1 : 0);
    if (far < least) { least = far; best = each; }
  }
  return best;
}
